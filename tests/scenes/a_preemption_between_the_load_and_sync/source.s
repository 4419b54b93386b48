# A more urgent task runs between the load and SYNC.
one:    lui $s0, %hi(word)
        sw $0, %lo(word)($s0)
        sync
        lui $s0, %hi(other)
        sw $0, %lo(other)($s0)
        addiu $v0, $0, 3
        syscall                 # ext_tsk()
        .align 8
two:    lui $s0, %hi(other)
        lw $t0, %lo(other)($s0)
        sync
        lui $s0, %hi(word)
        lw $t0, %lo(word)($s0)
        addiu $v0, $0, 3
        syscall                 # ext_tsk()
        .align 8
three:  lui $s0, %hi(node)
        sw $0, %lo(node)($s0)
        lui $s0, %hi(node)
        lw $t0, %lo(node)($s0)
        sync
        lui $s0, %hi(lock)
        lw $t0, %lo(lock)($s0)
        addiu $v0, $0, 3
        syscall                 # ext_tsk()
        .align 8
four:   addiu $a0, $0, 3
        addiu $v0, $0, 1
        syscall                 # act_tsk(3)
        addiu $v0, $0, 3
        syscall                 # ext_tsk()
