# Lab 3, solved. Two sellers, each on a processor of its own, sell the three seats of a small cinema. Each tries twice. `tell`
# waits until both are done, and writes how many were sold: it should be 3, whatever the order of their steps.
        .equ    ext_tsk, 3
        .equ    sig_sem, 24
        .equ    wai_sem, 25
        .equ    put_chr, 40
        .equ    ext_ker, 41
        .equ    done, 1                 # a semaphore

# $a0 is the task's argument: 0 or 4, where in `sold` it counts.
seller: lui     $s0, %hi(seats)
        addiu   $s1, $0, 2              # how many tries are left
try:    ll      $t0, %lo(seats)($s0)    # how many seats are left
        beqz    $t0, next
        addiu   $t0, $t0, -1            # in the slot
        sc      $t0, %lo(seats)($s0)    # $t0 becomes 1 if it stored, and 0 if somebody has stored since the ll
        beqz    $t0, try
        nop
        addiu   $s2, $s2, 1             # one is sold
next:   addiu   $s1, $s1, -1
        bnez    $s1, try
        nop
        lui     $t0, %hi(sold)
        addu    $t0, $t0, $a0
        sw      $s2, %lo(sold)($t0)
        addiu   $a0, $0, done
        addiu   $v0, $0, sig_sem
        syscall
        addiu   $v0, $0, ext_tsk
        syscall

tell:   addiu   $a0, $0, done
        addiu   $v0, $0, wai_sem
        syscall                         # for the one
        addiu   $v0, $0, wai_sem
        syscall                         # and for the other
        lui     $s0, %hi(sold)
        lw      $a0, %lo(sold)($s0)
        lw      $t0, %lo(sold+4)($s0)
        addu    $a0, $a0, $t0
        addiu   $a0, $a0, 48            # as a digit
        addiu   $v0, $0, put_chr
        syscall
        addiu   $v0, $0, ext_ker
        syscall

        .align  4
seats:  .word   3
sold:   .word   0, 0
