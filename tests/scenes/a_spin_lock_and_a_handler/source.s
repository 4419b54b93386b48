# A spin lock locks the processor, too: a handler before it and a handler after it.
one:    nop
        addiu $a0, $0, 1
        addiu $v0, $0, 60
        syscall                 # loc_spn(1)
        lui $s0, %hi(word)
        sw $0, %lo(word)($s0)
        addiu $a0, $0, 1
        addiu $v0, $0, 62
        syscall                 # unl_spn(1)
        nop
        nop
        nop
        nop
        nop
        nop
        addiu $v0, $0, 3
        syscall                 # ext_tsk()
        .align 8
first:  lui $s0, %hi(word)
        sw $0, %lo(word)($s0)
        addiu $v0, $0, 58
        syscall                 # ret_int()
