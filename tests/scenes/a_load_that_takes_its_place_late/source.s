# A load takes its place among the touches with the next access: two stores before that are the first race.
one:    lui $s0, %hi(word)
        lw $t0, %lo(word)($s0)
        lui $s0, %hi(node)
        sw $0, %lo(node)($s0)
        addiu $v0, $0, 3
        syscall                 # ext_tsk()
        .align 8
two:    lui $s0, %hi(word)
        sw $0, %lo(word)($s0)
        addiu $v0, $0, 3
        syscall                 # ext_tsk()
        .align 8
three:  lui $s0, %hi(word)
        sw $0, %lo(word)($s0)
        addiu $v0, $0, 3
        syscall                 # ext_tsk()
