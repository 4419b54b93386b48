# A stack of 30 bytes that the configuration places: $sp begins at a multiple of 8, 24 bytes above its low end.
main:   addiu $sp, $sp, -8
        sw $0, 0($sp)
        addiu $v0, $0, 3
        syscall
        .align 8
area:   .space 32
