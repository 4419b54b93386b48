# An SC that doesn't store, between SYNC and the store, which doesn't release so.
one:    lui $s0, %hi(word)
        sw $0, %lo(word)($s0)
        lui $s1, %hi(node)
        sync
        sc $t1, %lo(node)($s1)
        lui $s0, %hi(other)
        sw $0, %lo(other)($s0)
        addiu $v0, $0, 3
        syscall                 # ext_tsk()
        .align 8
two:    lui $s0, %hi(other)
        lw $t0, %lo(other)($s0)
        sync
        lui $s0, %hi(word)
        lw $t0, %lo(word)($s0)
        addiu $v0, $0, 3
        syscall                 # ext_tsk()
