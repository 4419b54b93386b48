# A data queue.
one:    lui $s0, %hi(word)
        sw $0, %lo(word)($s0)
        addiu $a0, $0, 1
        addiu $a1, $0, 7
        addiu $v0, $0, 33
        syscall
        addiu $v0, $0, 3
        syscall
        .align 8
two:    addiu $a0, $0, 1
        addiu $v0, $0, 37
        syscall
        lui $s0, %hi(word)
        sw $0, %lo(word)($s0)
        addiu $v0, $0, 3
        syscall
