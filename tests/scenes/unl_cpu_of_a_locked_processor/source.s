# The same where it is locked.
one:    addiu $v0, $0, 14
        syscall                 # loc_cpu()
        lui $s0, %hi(word)
        sw $0, %lo(word)($s0)
        addiu $v0, $0, 15
        syscall                 # unl_cpu()
        nop
        nop
        nop
        nop
        addiu $v0, $0, 3
        syscall                 # ext_tsk()
        .align 8
first:  lui $s0, %hi(word)
        lw $t0, %lo(word)($s0)
        addiu $v0, $0, 58
        syscall                 # ret_int()
