# Instructions that are no access, between SYNC and the store, and between the load and SYNC.
one:    lui $s0, %hi(word)
        sw $0, %lo(word)($s0)
        sync
        lui $s1, %hi(other)
        pref 0, 0($s1)
        nop
        sync
        mult $t0, $t1
        sw $0, %lo(other)($s1)
        addiu $v0, $0, 3
        syscall                 # ext_tsk()
        .align 8
two:    lui $s1, %hi(other)
        lw $t0, %lo(other)($s1)
        beq $t0, $0, next
        addiu $t0, $t0, 1
next:   pref 0, 0($s1)
        sync
        lui $s0, %hi(word)
        lw $t0, %lo(word)($s0)
        addiu $v0, $0, 3
        syscall                 # ext_tsk()
