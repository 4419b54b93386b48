# A wake-up of a task that sleeps.
one:    lui $s0, %hi(word)
        sw $0, %lo(word)($s0)
        addiu $a0, $0, 2
        addiu $v0, $0, 18
        syscall                 # wup_tsk(2)
        addiu $v0, $0, 3
        syscall                 # ext_tsk()
        .align 8
two:    addiu $a0, $0, 9
        addiu $v0, $0, 17
        syscall                 # tslp_tsk(9)
        lui $s0, %hi(word)
        sw $0, %lo(word)($s0)
        addiu $v0, $0, 3
        syscall                 # ext_tsk()
