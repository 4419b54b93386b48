# A bit of an event flag that nobody waited for.
one:    lui $s0, %hi(word)
        sw $0, %lo(word)($s0)
        addiu $a0, $0, 1
        addiu $a1, $0, 2
        addiu $v0, $0, 28
        syscall                 # set_flg(1, 2)
        addiu $v0, $0, 3
        syscall                 # ext_tsk()
        .align 8
two:    addiu $a0, $0, 1
        addiu $a1, $0, 1
        addiu $a2, $0, 0
        addiu $v0, $0, 30
        syscall                 # wai_flg(1, 1, 0)
        lui $s0, %hi(word)
        sw $0, %lo(word)($s0)
        addiu $v0, $0, 3
        syscall                 # ext_tsk()
        .align 8
three:  addiu $a0, $0, 1
        addiu $a1, $0, 1
        addiu $v0, $0, 28
        syscall                 # set_flg(1, 1)
        addiu $v0, $0, 3
        syscall                 # ext_tsk()
