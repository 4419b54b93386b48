# A function's own variable lies far below the stack, and is stored to by another register than $sp.
main:   addiu $sp, $sp, -4096
        addu $t0, $sp, $0
        sw $0, 100($t0)
        addiu $v0, $0, 3
        syscall
