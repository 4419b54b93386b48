# A sender whose wait ends in time has met nobody.
one:    lui $s0, %hi(word)
        sw $0, %lo(word)($s0)
        addiu $a0, $0, 1
        addiu $a1, $0, 7
        addiu $a2, $0, 1
        addiu $v0, $0, 35
        syscall                 # tsnd_dtq(1, 7, 1)
        addiu $v0, $0, 3
        syscall                 # ext_tsk()
        .align 8
two:    addiu $a0, $0, 1
        addiu $v0, $0, 38
        syscall                 # prcv_dtq(1)
        lui $s0, %hi(word)
        sw $0, %lo(word)($s0)
        addiu $v0, $0, 3
        syscall                 # ext_tsk()
