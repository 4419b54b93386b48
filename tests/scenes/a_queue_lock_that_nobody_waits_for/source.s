# A queue lock that nobody waits for.
one:    lui $s1, %hi(lock)
        addiu $s1, $s1, %lo(lock)
        lui $s2, %hi(node1)
        addiu $s2, $s2, %lo(node1)
        sw $0, 0($s2)
        ll $t1, 0($s1)
        addu $t2, $s2, $0
        sc $t2, 0($s1)
        lui $s0, %hi(word)
        sw $0, %lo(word)($s0)
        lw $t3, 0($s2)
        ll $t1, 0($s1)
        addu $t2, $0, $0
        sc $t2, 0($s1)
        addiu $v0, $0, 3
        syscall
        .align 8
two:    lui $s1, %hi(lock)
        addiu $s1, $s1, %lo(lock)
        lui $s2, %hi(node2)
        addiu $s2, $s2, %lo(node2)
        sw $0, 0($s2)
        ll $t1, 0($s1)
        addu $t2, $s2, $0
        sc $t2, 0($s1)
        lui $s0, %hi(word)
        sw $0, %lo(word)($s0)
        lw $t3, 0($s2)
        ll $t1, 0($s1)
        addu $t2, $0, $0
        sc $t2, 0($s1)
        addiu $v0, $0, 3
        syscall
