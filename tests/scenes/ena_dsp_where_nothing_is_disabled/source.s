# ena_dsp of a processor where dispatching isn't disabled releases nothing.
one:    lui $s0, %hi(word)
        sw $0, %lo(word)($s0)
        addiu $v0, $0, 13
        syscall                 # ena_dsp()
        addiu $v0, $0, 3
        syscall                 # ext_tsk()
        .align 8
two:    addiu $v0, $0, 12
        syscall                 # dis_dsp()
        lui $s0, %hi(word)
        sw $0, %lo(word)($s0)
        addiu $v0, $0, 13
        syscall                 # ena_dsp()
        addiu $v0, $0, 3
        syscall                 # ext_tsk()
