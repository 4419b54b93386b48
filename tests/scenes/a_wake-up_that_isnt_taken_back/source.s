# can_wup of a task that the wake-up has woken acquires nothing.
one:    lui $s0, %hi(word)
        sw $0, %lo(word)($s0)
        addiu $a0, $0, 3
        addiu $v0, $0, 18
        syscall                 # wup_tsk(3)
        addiu $v0, $0, 3
        syscall                 # ext_tsk()
        .align 8
two:    addiu $a0, $0, 3
        addiu $v0, $0, 19
        syscall                 # can_wup(3)
        lui $s0, %hi(word)
        sw $0, %lo(word)($s0)
        addiu $v0, $0, 3
        syscall                 # ext_tsk()
        .align 8
three:  addiu $v0, $0, 16
        syscall                 # slp_tsk()
        nop
        nop
        addiu $v0, $0, 3
        syscall                 # ext_tsk()
