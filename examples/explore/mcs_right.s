# An MCS lock (Mellor-Crummey and Scott, Algorithms for Scalable Synchronization, 1991): who comes puts a node of its
# own at the tail of a queue, and waits at that node until the one before clears the word there.
# Right: who leaves, and isn't the last one, waits for its next node.
# Look for: --word count=2 --fair 10. There is none.
        .equ    ext_tsk, 3
tail:   .word   0, 0, 0, 0
nodes:  .word   0, 0, 0, 0              # next, whether it waits
        .word   0, 0, 0, 0
count:  .word   0
main:   lui     $s0, %hi(tail)
        sll     $s1, $a0, 4
        addu    $s1, $s1, $s0
        addiu   $s1, $s1, %lo(nodes)
        addiu   $t0, $0, 1
        sw      $t0, 4($s1)
swap:   ll      $t1, %lo(tail)($s0)
        move    $t0, $s1
        sc      $t0, %lo(tail)($s0)
        beqz    $t0, swap
        nop
        beqz    $t1, enter
        nop
        sw      $s1, 0($t1)             # the one before knows this one
wait:   lw      $t0, 4($s1)
        bnez    $t0, wait
        nop
enter:  lw      $t0, %lo(count)($s0)
        addiu   $t0, $t0, 1
        sw      $t0, %lo(count)($s0)
        lw      $t1, 0($s1)
        bnez    $t1, hand
        nop
leave:  ll      $t0, %lo(tail)($s0)
        bne     $t0, $s1, next
        move    $t2, $0
        sc      $t2, %lo(tail)($s0)
        bnez    $t2, end
        nop
        b       leave
        nop
next:   lw      $t1, 0($s1)
        beqz    $t1, next
        nop
hand:   sw      $0, 4($t1)
end:    addiu   $v0, $0, ext_tsk
        syscall
