# What compilers put beside a division, and functions that return: nine tasks of falling priority on one processor, of
# which each ends by an exception, and a handler. The codes 6 and 7 of traps and of BREAK stand for an overflow and for a
# division by zero; GNU as writes that of a BREAK into the upper half of its bits. A task and a handler begin with 0 in
# $ra, so where their function returns, the next instruction is fetched from 0.
quotient: addiu $t0, $0, 9
        div     $t0, $t1
        teq     $t1, $0, 7
range:  lui     $t0, 0x8000
        teq     $t0, $t0, 6
broken: break   7
wide:   break   6
gnu:    .word   0x0007000d              # break 7, as GNU as has it
gnu6:   .word   0x0006000d              # break 6
other:  teq     $0, $0, 5               # no code of a division
leaves: addiu   $sp, $sp, -8
        sw      $ra, 4($sp)
        jal     leaf
        nop
        lw      $ra, 4($sp)
        jr      $ra                     # the function of the task returns
        addiu   $sp, $sp, 8
leaf:   jr      $ra
        nop
null:   jalr    $t0                     # a call of no function: $ra isn't 0
        nop
handler: jr     $ra                     # the function of the handler returns
        nop
