# CPU lock of two processors is two things.
one:    addiu $v0, $0, 14
        syscall                 # loc_cpu()
        lui $s0, %hi(word)
        sw $0, %lo(word)($s0)
        addiu $v0, $0, 15
        syscall                 # unl_cpu()
        addiu $v0, $0, 3
        syscall                 # ext_tsk()
        .align 8
two:    addiu $v0, $0, 14
        syscall                 # loc_cpu()
        lui $s0, %hi(word)
        sw $0, %lo(word)($s0)
        addiu $v0, $0, 15
        syscall                 # unl_cpu()
        addiu $v0, $0, 3
        syscall                 # ext_tsk()
