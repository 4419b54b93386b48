# For GNU as and ld (docs/ELF.md), with sections; `board asm` has no sections and refuses it.
        .set    noreorder
        .set    noat
        .section .text.start, "ax"
        .globl  _start
_start: lui     $t0, %hi(value)
        lw      $t1, %lo(value)($t0)
        lui     $t0, %hi(count)
        sw      $t1, %lo(count)($t0)
        addiu   $v0, $zero, 41
        syscall
        .data
        .globl  value
value:  .word   7
        .bss
        .globl  count
count:  .space  8
