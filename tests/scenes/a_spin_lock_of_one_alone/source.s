# A spin lock of one alone.
one:    addiu $a0, $0, 1
        addiu $v0, $0, 60
        syscall
        lui $s0, %hi(word)
        sw $0, %lo(word)($s0)
        addiu $a0, $0, 1
        addiu $v0, $0, 62
        syscall
        addiu $v0, $0, 3
        syscall
        .align 8
two:    lui $s0, %hi(word)
        sw $0, %lo(word)($s0)
        addiu $v0, $0, 3
        syscall
