# A handler and its task.
one:    lui $s0, %hi(word)
        sw $0, %lo(word)($s0)
        nop
        nop
        nop
        nop
        nop
        nop
        nop
        nop
        nop
        addiu $v0, $0, 3
        syscall
        .align 8
first:  lui $s0, %hi(word)
        sw $0, %lo(word)($s0)
        addiu $v0, $0, 58
        syscall
        .align 8
second: addiu $v0, $0, 58
        syscall
