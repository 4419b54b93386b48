# An event flag that two tasks wait for, each for its bit, set at once by a handler.
one:    addiu $a0, $0, 1
        addiu $a1, $0, 1
        addiu $a2, $0, 0
        addiu $v0, $0, 30
        syscall                 # wai_flg(1, 1, 0)
        lui $s0, %hi(word)
        lw $t0, %lo(word)($s0)
        addiu $v0, $0, 3
        syscall                 # ext_tsk()
        .align 8
two:    addiu $a0, $0, 1
        addiu $a1, $0, 2
        addiu $a2, $0, 1
        addiu $a3, $0, 9
        addiu $v0, $0, 32
        syscall                 # twai_flg(1, 2, 1, 9)
        lui $s0, %hi(word)
        lw $t0, %lo(word)($s0)
        addiu $v0, $0, 3
        syscall                 # ext_tsk()
        .align 8
first:  lui $s0, %hi(word)
        sw $0, %lo(word)($s0)
        addiu $a0, $0, 1
        addiu $a1, $0, 3
        addiu $v0, $0, 52
        syscall                 # iset_flg(1, 3)
        addiu $v0, $0, 58
        syscall                 # ret_int()
