# irel_wai of a task that waits.
one:    addiu $v0, $0, 16
        syscall                 # slp_tsk()
        lui $s0, %hi(word)
        sw $0, %lo(word)($s0)
        addiu $v0, $0, 3
        syscall                 # ext_tsk()
        .align 8
first:  lui $s0, %hi(word)
        sw $0, %lo(word)($s0)
        addiu $a0, $0, 1
        addiu $v0, $0, 50
        syscall                 # irel_wai(1)
        addiu $v0, $0, 58
        syscall                 # ret_int()
