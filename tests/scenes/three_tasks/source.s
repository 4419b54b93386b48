# A deep task, one that never starts, and a shallow one on another processor.
main:   addiu $a0, $0, 3
        jal down
        nop
        addiu $v0, $0, 3
        syscall
down:   addiu $sp, $sp, -16
        sw $ra, 12($sp)
        beqz $a0, up
        addiu $a0, $a0, -1
        jal down
        nop
up:     lw $ra, 12($sp)
        jr $ra
        addiu $sp, $sp, 16
shallow: addiu $sp, $sp, -8
        sw $ra, 4($sp)
        addiu $sp, $sp, 8
        addiu $v0, $0, 3
        syscall
