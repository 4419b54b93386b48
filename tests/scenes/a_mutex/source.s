# A mutex: task 2 takes it when it is free, or when its wait ends, by the journal.
one:    addiu $a0, $0, 1
        addiu $v0, $0, 77
        syscall                 # loc_mtx(1)
        lui $s0, %hi(word)
        sw $0, %lo(word)($s0)
        addiu $v0, $0, 80
        syscall                 # unl_mtx(1)
        addiu $v0, $0, 3
        syscall                 # ext_tsk()
        .align 8
two:    addiu $a0, $0, 1
        addiu $v0, $0, 77
        syscall                 # loc_mtx(1)
        lui $s0, %hi(word)
        sw $0, %lo(word)($s0)
        addiu $v0, $0, 80
        syscall                 # unl_mtx(1)
        addiu $v0, $0, 3
        syscall                 # ext_tsk()
