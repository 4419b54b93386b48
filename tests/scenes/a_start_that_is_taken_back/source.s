# can_act that takes a request back.
one:    addiu $a0, $0, 3
        addiu $v0, $0, 1
        syscall                 # act_tsk(3)
        lui $s0, %hi(word)
        sw $0, %lo(word)($s0)
        addiu $a0, $0, 3
        addiu $v0, $0, 1
        syscall                 # act_tsk(3)
        addiu $v0, $0, 3
        syscall                 # ext_tsk()
        .align 8
two:    addiu $a0, $0, 3
        addiu $v0, $0, 2
        syscall                 # can_act(3)
        lui $s0, %hi(word)
        sw $0, %lo(word)($s0)
        addiu $v0, $0, 3
        syscall                 # ext_tsk()
        .align 8
three:  addiu $v0, $0, 3
        syscall                 # ext_tsk()
