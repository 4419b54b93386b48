# Disabled dispatching.
one:    addiu $v0, $0, 12
        syscall
        lui $s0, %hi(word)
        sw $0, %lo(word)($s0)
        addiu $v0, $0, 13
        syscall
        addiu $v0, $0, 3
        syscall
        .align 8
two:    addiu $v0, $0, 12
        syscall
        lui $s0, %hi(word)
        sw $0, %lo(word)($s0)
        addiu $v0, $0, 13
        syscall
        addiu $v0, $0, 3
        syscall
