# Time handlers that take their stacks, which symbols name by the lines: that of alarm handler 1 has line 33.
task:   addiu   $a0, $0, 1
        addiu   $a1, $0, 0
        addiu   $v0, $0, 95
        syscall                         # sta_alm(1, 0)
        b       task
        nop
cyclic: lui     $sp, %hi(end_of_handler_stack_32)
        addiu   $sp, $sp, %lo(end_of_handler_stack_32)
        addiu   $sp, $sp, -24
        sw      $0, 0($sp)
        addiu   $v0, $0, 58
        syscall                         # ret_int
alarm:  lui     $sp, %hi(end_of_handler_stack_33)
        addiu   $sp, $sp, %lo(end_of_handler_stack_33)
        addiu   $sp, $sp, -16
        sw      $0, 0($sp)
        addiu   $v0, $0, 58
        syscall                         # ret_int
        .align  8
handler_stack_32: .space 32
end_of_handler_stack_32: .word 0
        .align  8
handler_stack_33: .space 32
end_of_handler_stack_33: .word 0
