# A flag of a byte, by a releasing store and an acquiring load.
one:    lui $s0, %hi(word)
        sw $0, %lo(word)($s0)
        lui $s1, %hi(other)
        addiu $t1, $0, 1
        sync
        sb $t1, %lo(other)($s1)
        addiu $v0, $0, 3
        syscall                 # ext_tsk()
        .align 8
two:    lui $s1, %hi(other)
        lbu $t1, %lo(other)($s1)
        sync
        lui $s0, %hi(word)
        lw $t0, %lo(word)($s0)
        addiu $v0, $0, 3
        syscall                 # ext_tsk()
