# Two handlers of a processor.
one:    nop
        nop
        nop
        nop
        nop
        nop
        nop
        nop
        nop
        nop
        nop
        nop
        nop
        nop
        nop
        nop
        nop
        nop
        nop
        nop
        nop
        nop
        nop
        nop
        nop
        nop
        nop
        nop
        nop
        nop
        .align 8
first:  lui $s0, %hi(word)
        sw $0, %lo(word)($s0)
        addiu $v0, $0, 58
        syscall
        .align 8
second: lui $s0, %hi(word)
        sw $0, %lo(word)($s0)
        addiu $v0, $0, 58
        syscall
