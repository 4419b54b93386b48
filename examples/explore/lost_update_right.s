# The lost update, repaired: LL and SC. An SC stores only if no other processor has stored since its LL.
# Look for: --word count=2. There is none.
        .equ    ext_tsk, 3
count:  .word   0
main:   lui     $s0, %hi(count)
again:  ll      $t0, %lo(count)($s0)
        addiu   $t0, $t0, 1
        sc      $t0, %lo(count)($s0)
        beqz    $t0, again
        nop
        addiu   $v0, $0, ext_tsk
        syscall
