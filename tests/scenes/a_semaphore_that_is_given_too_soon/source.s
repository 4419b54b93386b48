# A semaphore that is given too soon.
one:    addiu $a0, $0, 1
        addiu $v0, $0, 24
        syscall
        lui $s0, %hi(word)
        sw $0, %lo(word)($s0)
        addiu $v0, $0, 3
        syscall
        .align 8
two:    addiu $a0, $0, 1
        addiu $v0, $0, 25
        syscall
        lui $s0, %hi(word)
        sw $0, %lo(word)($s0)
        addiu $v0, $0, 3
        syscall
