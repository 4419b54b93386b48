# A suspension.
one:    lui $s0, %hi(word)
        sw $0, %lo(word)($s0)
        nop
        nop
        nop
        nop
        nop
        nop
        nop
        nop
        nop
        lui $s0, %hi(word)
        sw $0, %lo(word)($s0)
        .align 8
two:    addiu $a0, $0, 1
        addiu $v0, $0, 21
        syscall
        lui $s0, %hi(word)
        sw $0, %lo(word)($s0)
        addiu $a0, $0, 1
        addiu $v0, $0, 22
        syscall
        addiu $v0, $0, 3
        syscall
