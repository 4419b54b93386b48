# A task gives itself another stack, below its own: what it stores there isn't below its own stack.
main:   addiu $sp, $sp, -8
        lui $sp, %hi(another)
        addiu $sp, $sp, %lo(another)
        sw $0, -4($sp)
        addiu $v0, $0, 3
        syscall
        .align 8
        .space 64
another: .word 0
