# rsm_tsk of a suspended task.
one:    addiu $a0, $0, 2
        addiu $v0, $0, 21
        syscall                 # sus_tsk(2)
        lui $s0, %hi(word)
        sw $0, %lo(word)($s0)
        addiu $a0, $0, 2
        addiu $v0, $0, 22
        syscall                 # rsm_tsk(2)
        addiu $v0, $0, 3
        syscall                 # ext_tsk()
        .align 8
two:    nop
        lui $s0, %hi(word)
        sw $0, %lo(word)($s0)
        addiu $v0, $0, 3
        syscall                 # ext_tsk()
