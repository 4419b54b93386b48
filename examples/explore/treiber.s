# Treiber's stack (R. K. Treiber, Systems Programming: Coping with Parallelism, 1986). One processor pops two nodes; the
# other one pops two, and pushes the first one of them back. A node has at most one owner.
# Broken, the ABA problem: what was the head when the next node was loaded is the head again, with another next node.
# Look for: --word a_owners=0..1,b_owners=0..1. Found with 1 preemption, between the load of the next node and the LL.
        .equ    ext_tsk, 3
head:   .word   a, 0, 0, 0
a:      .word   b                       # the next node
a_owners: .word 0, 0, 0
b:      .word   0
b_owners: .word 0, 0, 0
first:  lui     $s0, %hi(head)
        bal     pop
        nop
        bal     pop
        nop
        b       end
        nop
second: lui     $s0, %hi(head)
        bal     pop
        nop
        beqz    $v1, end
        move    $s1, $v1
        bal     pop
        nop
        sw      $0, 4($s1)              # no owner
push:   lw      $t0, %lo(head)($s0)
        sw      $t0, 0($s1)
        ll      $t1, %lo(head)($s0)
        bne     $t1, $t0, push
        move    $t2, $s1
        sc      $t2, %lo(head)($s0)
        beqz    $t2, push
        nop
end:    addiu   $v0, $0, ext_tsk
        syscall
pop:    lw      $v1, %lo(head)($s0)
        beqz    $v1, popped
        nop
        lw      $t0, 0($v1)
        ll      $t1, %lo(head)($s0)
        bne     $t1, $v1, pop
        nop
        sc      $t0, %lo(head)($s0)
        beqz    $t0, pop
        lw      $t0, 4($v1)
        addiu   $t0, $t0, 1             # an owner more
        sw      $t0, 4($v1)
popped: jr      $ra
        nop
