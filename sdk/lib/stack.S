/* For programs that are built with STACK_CHECK=1: each function calls this first, which looks whether the stack has
 * room for it. It takes no stack itself, and no register that compilers use. */
        .set    noreorder
        .equ    OVERFLOW_STACK, 2048
        .section .text
        .globl  __cyg_profile_func_enter
        .globl  __cyg_profile_func_exit
__cyg_profile_func_enter:
        sltu    $k1, $sp, $k0
        bnez    $k1, overflow
        nop
__cyg_profile_func_exit:
        jr      $ra
        nop

/* $a0 is the function that has no room, $a1 the stack. It is reported on another one. */
overflow:
        addu    $a1, $k0, $0
        lui     $sp, %hi(overflow_stack)
        addiu   $sp, $sp, %lo(overflow_stack)
        addu    $k0, $0, $0
        j       board_overflow
        addiu   $sp, $sp, OVERFLOW_STACK - 16

        .section .bss.stacks, "aw", @nobits
        .balign 16
overflow_stack:
        .space  OVERFLOW_STACK
