# A lock that a store frees.
one:    lui $s1, %hi(lock)
        addiu $s1, $s1, %lo(lock)
        ll $t1, 0($s1)
        addiu $t1, $0, 1
        sc $t1, 0($s1)
        lui $s0, %hi(word)
        sw $0, %lo(word)($s0)
        sw $0, 0($s1)
        addiu $v0, $0, 3
        syscall
        .align 8
two:    lui $s1, %hi(lock)
        addiu $s1, $s1, %lo(lock)
        ll $t1, 0($s1)
        addiu $t1, $0, 1
        sc $t1, 0($s1)
        lui $s0, %hi(word)
        sw $0, %lo(word)($s0)
        sw $0, 0($s1)
        addiu $v0, $0, 3
        syscall
