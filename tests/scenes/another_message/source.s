# Two messages, of which task 2 receives the one that was sent before the store.
one:    addiu $a0, $0, 1
        addiu $a1, $0, 128
        addiu $v0, $0, 86
        syscall                 # snd_mbx(1, 0x80, 0)
        lui $s0, %hi(word)
        sw $0, %lo(word)($s0)
        addiu $a1, $0, 64
        addiu $v0, $0, 86
        syscall                 # snd_mbx(1, 0x40, 0)
        addiu $v0, $0, 3
        syscall                 # ext_tsk()
        .align 8
two:    addiu $a0, $0, 1
        addiu $v0, $0, 89
        syscall                 # prcv_mbx(1)
        lui $s0, %hi(word)
        sw $0, %lo(word)($s0)
        addiu $v0, $0, 3
        syscall                 # ext_tsk()
