# A semaphore that a handler gives.
one:    nop
        nop
        addiu $v0, $0, 3
        syscall                 # ext_tsk()
        .align 8
two:    addiu $a0, $0, 1
        addiu $v0, $0, 25
        syscall                 # wai_sem(1)
        lui $s0, %hi(word)
        sw $0, %lo(word)($s0)
        addiu $v0, $0, 3
        syscall                 # ext_tsk()
        .align 8
first:  lui $s0, %hi(word)
        sw $0, %lo(word)($s0)
        addiu $a0, $0, 1
        addiu $v0, $0, 51
        syscall                 # isig_sem(1)
        addiu $v0, $0, 58
        syscall                 # ret_int()
