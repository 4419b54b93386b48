# A datum that a waiting receiver gets.
one:    lui $s0, %hi(word)
        sw $0, %lo(word)($s0)
        addiu $a0, $0, 1
        addiu $a1, $0, 7
        addiu $v0, $0, 34
        syscall                 # psnd_dtq(1, 7)
        addiu $v0, $0, 3
        syscall                 # ext_tsk()
        .align 8
two:    addiu $a0, $0, 1
        addiu $a1, $0, 9
        addiu $v0, $0, 39
        syscall                 # trcv_dtq(1, 9)
        lui $s0, %hi(word)
        sw $0, %lo(word)($s0)
        addiu $v0, $0, 3
        syscall                 # ext_tsk()
