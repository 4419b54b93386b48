# A store below the stack and below $sp, by another register: no stack has grown there.
main:   addiu $sp, $sp, -8
        lui $t0, %hi(word)
        sw $0, %lo(word)($t0)
        addiu $v0, $0, 3
        syscall
word:   .word 0
