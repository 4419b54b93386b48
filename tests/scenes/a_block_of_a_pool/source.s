# A block of a memory pool: task 2 takes it when it is there again, or when its wait ends, by the journal.
one:    addiu $a0, $0, 1
        addiu $v0, $0, 82
        syscall                 # get_mpf(1)
        lui $s0, %hi(word)
        sw $0, %lo(word)($s0)
        addu $a1, $0, $v1
        addiu $v0, $0, 85
        syscall                 # rel_mpf(1, the block)
        addiu $v0, $0, 3
        syscall                 # ext_tsk()
        .align 8
two:    addiu $a0, $0, 1
        addiu $v0, $0, 82
        syscall                 # get_mpf(1)
        lui $s0, %hi(word)
        sw $0, %lo(word)($s0)
        addiu $v0, $0, 3
        syscall                 # ext_tsk()
