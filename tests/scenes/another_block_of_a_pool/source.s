# Two blocks of a memory pool, of which task 2 takes the one that came back before the store.
one:    addiu $a0, $0, 1
        addiu $v0, $0, 83
        syscall                 # pget_mpf(1)
        addu $s1, $0, $v1
        addiu $v0, $0, 83
        syscall                 # pget_mpf(1)
        addu $s2, $0, $v1
        addu $a1, $0, $s1
        addiu $v0, $0, 85
        syscall                 # rel_mpf(1, the first block)
        lui $s0, %hi(word)
        sw $0, %lo(word)($s0)
        addu $a1, $0, $s2
        addiu $v0, $0, 85
        syscall                 # rel_mpf(1, the second block)
        addiu $v0, $0, 3
        syscall                 # ext_tsk()
        .align 8
two:    addiu $a0, $0, 1
        addiu $v0, $0, 83
        syscall                 # pget_mpf(1)
        lui $s0, %hi(word)
        sw $0, %lo(word)($s0)
        addiu $v0, $0, 3
        syscall                 # ext_tsk()
