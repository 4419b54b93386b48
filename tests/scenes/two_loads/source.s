# Two loads.
one:    lui $s0, %hi(word)
        lw $t0, %lo(word)($s0)
        addiu $v0, $0, 3
        syscall
        .align 8
two:    lui $s0, %hi(word)
        lw $t0, %lo(word)($s0)
        addiu $v0, $0, 3
        syscall
