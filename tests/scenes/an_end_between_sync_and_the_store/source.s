# A task's end between SYNC and the first store of its next start.
one:    lui $s0, %hi(other)
        sw $0, %lo(other)($s0)
        lui $s0, %hi(word)
        sw $0, %lo(word)($s0)
        sync
        break
        .align 8
two:    lui $s0, %hi(other)
        lw $t0, %lo(other)($s0)
        sync
        lui $s0, %hi(word)
        lw $t0, %lo(word)($s0)
        addiu $v0, $0, 3
        syscall                 # ext_tsk()
        .align 8
three:  addiu $a0, $0, 1
        addiu $v0, $0, 1
        syscall                 # act_tsk(1)
        addiu $v0, $0, 3
        syscall                 # ext_tsk()
