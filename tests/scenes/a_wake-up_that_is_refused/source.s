# A second wake-up, which is refused, releases nothing.
one:    lui $s0, %hi(word)
        sw $0, %lo(word)($s0)
        addiu $a0, $0, 2
        addiu $v0, $0, 18
        syscall                 # wup_tsk(2)
        addiu $v0, $0, 3
        syscall                 # ext_tsk()
        .align 8
two:    addiu $v0, $0, 16
        syscall                 # slp_tsk()
        lui $s0, %hi(word)
        sw $0, %lo(word)($s0)
        addiu $v0, $0, 3
        syscall                 # ext_tsk()
        .align 8
three:  addiu $a0, $0, 2
        addiu $v0, $0, 18
        syscall                 # wup_tsk(2)
        addiu $v0, $0, 3
        syscall                 # ext_tsk()
