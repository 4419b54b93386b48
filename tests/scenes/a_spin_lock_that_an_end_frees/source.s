# A spin lock that its holder's end frees.
one:    addiu $a0, $0, 1
        addiu $v0, $0, 60
        syscall                 # loc_spn(1)
        lui $s0, %hi(word)
        sw $0, %lo(word)($s0)
        addiu $v0, $0, 3
        syscall                 # ext_tsk()
        .align 8
two:    addiu $a0, $0, 1
        addiu $v0, $0, 60
        syscall                 # loc_spn(1)
        lui $s0, %hi(word)
        sw $0, %lo(word)($s0)
        addiu $a0, $0, 1
        addiu $v0, $0, 62
        syscall                 # unl_spn(1)
        addiu $v0, $0, 3
        syscall                 # ext_tsk()
