# A message of a handler.
one:    lui $s0, %hi(word)
        sw $0, %lo(word)($s0)
        addiu $a0, $0, 1
        addiu $a1, $0, 64
        addiu $v0, $0, 87
        syscall                 # isnd_mbx(1, 0x40, 0)
        addiu $v0, $0, 58
        syscall                 # ret_int()
        .align 8
two:    addiu $a0, $0, 1
        addiu $v0, $0, 89
        syscall                 # prcv_mbx(1)
        lui $s0, %hi(word)
        sw $0, %lo(word)($s0)
        addiu $v0, $0, 3
        syscall                 # ext_tsk()
