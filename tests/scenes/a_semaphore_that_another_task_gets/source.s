# A wait for a semaphore that ends in time, since another task has got the unit.
one:    lui $s0, %hi(word)
        sw $0, %lo(word)($s0)
        addiu $a0, $0, 1
        addiu $v0, $0, 24
        syscall                 # sig_sem(1)
        addiu $v0, $0, 3
        syscall                 # ext_tsk()
        .align 8
two:    addiu $a0, $0, 1
        addiu $a1, $0, 1
        addiu $v0, $0, 27
        syscall                 # twai_sem(1, 1)
        lui $s0, %hi(word)
        sw $0, %lo(word)($s0)
        addiu $v0, $0, 3
        syscall                 # ext_tsk()
        .align 8
three:  addiu $a0, $0, 1
        addiu $v0, $0, 26
        syscall                 # pol_sem(1)
        addiu $v0, $0, 3
        syscall                 # ext_tsk()
