# Either of two bits is waited for; one was set and cleared before.
one:    lui $s0, %hi(word)
        sw $0, %lo(word)($s0)
        addiu $a0, $0, 1
        addiu $a1, $0, 2
        addiu $v0, $0, 28
        syscall                 # set_flg(1, 2)
        addiu $a0, $0, 1
        addiu $a1, $0, 1
        addiu $v0, $0, 29
        syscall                 # clr_flg(1, 1)
        addiu $v0, $0, 3
        syscall                 # ext_tsk()
        .align 8
two:    addiu $a0, $0, 1
        addiu $a1, $0, 3
        addiu $a2, $0, 1
        addiu $v0, $0, 31
        syscall                 # pol_flg(1, 3, 1)
        lui $s0, %hi(word)
        sw $0, %lo(word)($s0)
        lui $s0, %hi(other)
        sw $0, %lo(other)($s0)
        addiu $v0, $0, 3
        syscall                 # ext_tsk()
        .align 8
three:  lui $s0, %hi(other)
        sw $0, %lo(other)($s0)
        addiu $a0, $0, 1
        addiu $a1, $0, 1
        addiu $v0, $0, 28
        syscall                 # set_flg(1, 1)
        addiu $v0, $0, 3
        syscall                 # ext_tsk()
