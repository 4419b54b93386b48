# ifsnd_dtq, twice into a queue of one place.
one:    nop
        nop
        addiu $v0, $0, 3
        syscall                 # ext_tsk()
        .align 8
two:    addiu $a0, $0, 1
        addiu $v0, $0, 38
        syscall                 # prcv_dtq(1)
        lui $s0, %hi(word)
        sw $0, %lo(word)($s0)
        addiu $v0, $0, 3
        syscall                 # ext_tsk()
        .align 8
first:  lui $s0, %hi(word)
        sw $0, %lo(word)($s0)
        addiu $a0, $0, 1
        addiu $a1, $0, 5
        addiu $v0, $0, 54
        syscall                 # ifsnd_dtq(1, 5)
        addiu $v0, $0, 58
        syscall                 # ret_int()
