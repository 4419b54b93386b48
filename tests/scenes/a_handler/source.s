# A handler that takes its stack, which two symbols name; the other one has none.
task:   b task
        nop
handler: lui $sp, %hi(end_of_handler_stack_4)
        addiu $sp, $sp, %lo(end_of_handler_stack_4)
        addiu $sp, $sp, -24
        sw $0, 0($sp)
        addiu $v0, $0, 58
        syscall
        .align 8
handler_stack_4: .space 32
end_of_handler_stack_4: .word 0
