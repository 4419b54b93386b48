# A suspension between SYNC and the store, which doesn't release so.
one:    lui $s0, %hi(word)
        sw $0, %lo(word)($s0)
        sync
        lui $s0, %hi(other)
        sw $0, %lo(other)($s0)
        addiu $v0, $0, 3
        syscall                 # ext_tsk()
        .align 8
two:    lui $s0, %hi(other)
        lw $t0, %lo(other)($s0)
        sync
        lui $s0, %hi(word)
        lw $t0, %lo(word)($s0)
        addiu $v0, $0, 3
        syscall                 # ext_tsk()
        .align 8
three:  addiu $a0, $0, 1
        addiu $v0, $0, 21
        syscall                 # sus_tsk(1)
        addiu $a0, $0, 1
        addiu $v0, $0, 22
        syscall                 # rsm_tsk(1)
        addiu $v0, $0, 3
        syscall                 # ext_tsk()
