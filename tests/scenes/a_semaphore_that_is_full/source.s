# sig_sem that is refused, since the semaphore is full, releases nothing.
one:    lui $s0, %hi(word)
        sw $0, %lo(word)($s0)
        addiu $a0, $0, 1
        addiu $v0, $0, 24
        syscall                 # sig_sem(1)
        addiu $v0, $0, 3
        syscall                 # ext_tsk()
        .align 8
two:    addiu $a0, $0, 1
        addiu $v0, $0, 26
        syscall                 # pol_sem(1)
        lui $s0, %hi(word)
        sw $0, %lo(word)($s0)
        addiu $v0, $0, 3
        syscall                 # ext_tsk()
