# An end by another task.
one:    lui $s0, %hi(word)
        sw $0, %lo(word)($s0)
        nop
        nop
        nop
        nop
        nop
        nop
        nop
        nop
        nop
        .align 8
two:    addiu $a0, $0, 1
        addiu $v0, $0, 4
        syscall
        lui $s0, %hi(word)
        sw $0, %lo(word)($s0)
        addiu $v0, $0, 3
        syscall
