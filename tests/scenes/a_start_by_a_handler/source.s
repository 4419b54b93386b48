# A task that a handler starts on another processor.
one:    nop
        nop
        addiu $v0, $0, 3
        syscall                 # ext_tsk()
        .align 8
two:    lui $s0, %hi(word)
        sw $0, %lo(word)($s0)
        addiu $v0, $0, 3
        syscall                 # ext_tsk()
        .align 8
first:  lui $s0, %hi(word)
        sw $0, %lo(word)($s0)
        addiu $a0, $0, 2
        addiu $a1, $0, 2
        addiu $v0, $0, 57
        syscall                 # imact_tsk(2, 2)
        addiu $v0, $0, 58
        syscall                 # ret_int()
        .align 8
second: addiu $v0, $0, 58
        syscall                 # ret_int()
