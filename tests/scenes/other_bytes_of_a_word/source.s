# Other bytes of a word.
one:    lui $s0, %hi(word)
        sb $t0, %lo(word)($s0)
        addiu $v0, $0, 3
        syscall
        .align 8
two:    lui $s0, %hi(word)
        addiu $s0, $s0, %lo(word)
        lbu $t0, 1($s0)
        addiu $v0, $0, 3
        syscall
