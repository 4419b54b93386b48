# A handler before CPU lock.
one:    nop
        nop
        addiu $v0, $0, 14
        syscall
        lui $s0, %hi(word)
        sw $0, %lo(word)($s0)
        addiu $v0, $0, 15
        syscall
        addiu $v0, $0, 3
        syscall
        .align 8
first:  lui $s0, %hi(word)
        sw $0, %lo(word)($s0)
        addiu $v0, $0, 58
        syscall
        .align 8
second: addiu $v0, $0, 58
        syscall
