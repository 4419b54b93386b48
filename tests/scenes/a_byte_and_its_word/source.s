# A byte and its word.
one:    lui $s0, %hi(word)
        addiu $s0, $s0, %lo(word)
        sb $t0, 3($s0)
        addiu $v0, $0, 3
        syscall
        .align 8
two:    lui $s0, %hi(word)
        lw $t0, %lo(word)($s0)
        addiu $v0, $0, 3
        syscall
