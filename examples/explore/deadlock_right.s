# The deadlock, repaired: both tasks take the two semaphores in the same order.
# Look for: --deadlock. There is none.
        .equ    ext_tsk, 3
        .equ    sig_sem, 24
        .equ    wai_sem, 25
first:  addiu   $s0, $0, 1
        b       both
        addiu   $s1, $0, 2
second: addiu   $s0, $0, 1
        addiu   $s1, $0, 2
both:   move    $a0, $s0
        addiu   $v0, $0, wai_sem
        syscall
        move    $a0, $s1
        addiu   $v0, $0, wai_sem
        syscall
        addiu   $v0, $0, sig_sem
        syscall
        move    $a0, $s0
        addiu   $v0, $0, sig_sem
        syscall
        addiu   $v0, $0, ext_tsk
        syscall
