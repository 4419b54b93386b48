# A sequence lock.
one:    lui $s0, %hi(lock)
        lw $t0, %lo(lock)($s0)
        addiu $t0, $t0, 1
        sw $t0, %lo(lock)($s0)
        sw $0, %lo(word)($s0)
        addiu $t0, $t0, 1
        sw $t0, %lo(lock)($s0)
        addiu $v0, $0, 3
        syscall
        .align 8
two:    lui $s0, %hi(lock)
        lw $t0, %lo(lock)($s0)
        lw $t1, %lo(word)($s0)
        lw $t2, %lo(lock)($s0)
        addiu $v0, $0, 3
        syscall
