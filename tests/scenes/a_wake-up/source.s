# A wake-up.
one:    lui $s0, %hi(word)
        sw $0, %lo(word)($s0)
        addiu $a0, $0, 2
        addiu $v0, $0, 18
        syscall
        addiu $v0, $0, 3
        syscall
        .align 8
two:    addiu $v0, $0, 16
        syscall
        lui $s0, %hi(word)
        sw $0, %lo(word)($s0)
        addiu $v0, $0, 3
        syscall
