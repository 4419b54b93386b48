/* Where tasks and handlers begin, and what becomes of them when their functions in C return. The kernel begins both with
 * 0 in $ra, so a function that returned there would fetch its next instruction from 0, which is an exception. A handler
 * begins with 0 in $sp too: each line has a stack of its own, since handlers of two processors run at the same time.
 * Above its stack pointer a function finds 16 bytes for its arguments, hence each 16 below.
 *
 * $k0, which no compiler uses, has the lowest address of the stack, for stack.S. Whatever is in $a0 stays there: the
 * argument (exinf) of a task or of a time handler, another handler's line. For debuggers a backtrace ends here: nobody
 * has called these. */
        .set    noreorder
        .cfi_sections .debug_frame
        .equ    EXT_TSK, 3
        .equ    RET_INT, 58
        .set    areas, 0

/* void board_trap(void): an exception, which stops a handler's processor for good. */
        .macro  trap
        .globl  board_trap
board_trap:
        break
        nop
        .endm

/* BOARD: how much RAM there is, for the linker script. */
        .macro  entry_board ram
        .globl  board_ram
        .equ    board_ram, \ram
        .endm

/* CRE_TSK: task_ID calls the task's function, and then ext_tsk. The label shows of a task that is dormant why it is. */
        .macro  entry_task id, function, size, stack
        .globl  task_\id
        .type   task_\id, @function
task_\id:
        .cfi_startproc
        .cfi_undefined 31
        li      $k0, \size
        subu    $k0, $sp, $k0
        jal     \function
        addiu   $sp, $sp, -16           /* in the delay slot */
returned_from_\function\().\id:
        addiu   $v0, $0, EXT_TSK
        syscall
        .cfi_endproc
        .size   task_\id, . - task_\id
        .ifc    \stack, NULL
        .set    areas, areas + ((\size + 15) / 16) * 16
        .endif
        .endm

/* CRE_MPF: the blocks of a pool lie below the stacks, each rounded up to whole words. */
        .macro  entry_pool count, size, pool
        .ifc    \pool, NULL
        .set    areas, areas + \count * (((\size + 3) / 4) * 4)
        .endif
        .endm

/* DEF_INH: handler_LINE calls the handler's function on the line's stack, and then ret_int. CRE_CYC and CRE_ALM: so do
 * cyclic_ID and alarm_ID, whose lines are 30 + 2 * ID and 31 + 2 * ID. */
        .macro  entry_handler name, line, function
        .globl  \name
        .type   \name, @function
\name\():
        .cfi_startproc
        .cfi_undefined 31
        lui     $k0, %hi(handler_stack_\line)
        addiu   $k0, $k0, %lo(handler_stack_\line)
        jal     \function
        addiu   $sp, $k0, HANDLER_STACK - 16
        addiu   $v0, $0, RET_INT
        syscall
        .cfi_endproc
        .size   \name, . - \name
        .pushsection .bss.stacks, "aw", @nobits
        .balign 16
handler_stack_\line:
        .space  HANDLER_STACK
end_of_handler_stack_\line:
        .popsection
        .endm

        .section .text.start, "ax"
#include "entries.inc"
        trap

/* How much the stacks and memory pools take that the board lays from the end of RAM down, for the linker script. */
        .globl  board_areas
        .equ    board_areas, areas
