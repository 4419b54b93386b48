# A second store after SYNC doesn't release.
one:    lui $s0, %hi(word)
        sw $0, %lo(word)($s0)
        sync
        lui $s0, %hi(node)
        sw $0, %lo(node)($s0)
        lui $s0, %hi(other)
        sw $0, %lo(other)($s0)
        addiu $v0, $0, 3
        syscall                 # ext_tsk()
        .align 8
two:    lui $s0, %hi(other)
        lw $t0, %lo(other)($s0)
        sync
        lui $s0, %hi(word)
        lw $t0, %lo(word)($s0)
        addiu $v0, $0, 3
        syscall                 # ext_tsk()
