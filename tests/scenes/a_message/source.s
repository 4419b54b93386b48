# A message: task 2 receives it when it is there, or when its wait ends, by the journal.
one:    lui $s0, %hi(word)
        sw $0, %lo(word)($s0)
        addiu $a0, $0, 1
        addiu $a1, $0, 64
        addiu $v0, $0, 86
        syscall                 # snd_mbx(1, 0x40, 0)
        addiu $v0, $0, 3
        syscall                 # ext_tsk()
        .align 8
two:    addiu $a0, $0, 1
        addiu $v0, $0, 88
        syscall                 # rcv_mbx(1)
        lui $s0, %hi(word)
        sw $0, %lo(word)($s0)
        addiu $v0, $0, 3
        syscall                 # ext_tsk()
