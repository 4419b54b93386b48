# What both do after a rendezvous has no order.
one:    addiu $a0, $0, 1
        addiu $a1, $0, 7
        addiu $v0, $0, 33
        syscall                 # snd_dtq(1, 7)
        lui $s0, %hi(word)
        sw $0, %lo(word)($s0)
        addiu $v0, $0, 3
        syscall                 # ext_tsk()
        .align 8
two:    addiu $a0, $0, 1
        addiu $v0, $0, 37
        syscall                 # rcv_dtq(1)
        lui $s0, %hi(word)
        sw $0, %lo(word)($s0)
        addiu $v0, $0, 3
        syscall                 # ext_tsk()
