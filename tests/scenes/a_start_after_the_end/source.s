# A request that is queued starts the task when it ends.
one:    addiu $a0, $0, 1
        addiu $v0, $0, 25
        syscall                 # wai_sem(1)
        lui $s0, %hi(word)
        sw $0, %lo(word)($s0)
        addiu $a0, $0, 3
        addiu $v0, $0, 1
        syscall                 # act_tsk(3)
        addiu $v0, $0, 3
        syscall                 # ext_tsk()
        .align 8
three:  lui $s0, %hi(word)
        sw $0, %lo(word)($s0)
        addiu $a0, $0, 1
        addiu $v0, $0, 24
        syscall                 # sig_sem(1)
        addiu $v0, $0, 3
        syscall                 # ext_tsk()
