# Three philosophers at a round table, on three processors, with a fork between any two: each takes the fork on the
# left, and then the one on the right.
# Look for: --deadlock. Found with 1 preemption: one that waits for a fork leaves its processor without any.
        .equ    ext_tsk, 3
        .equ    sig_sem, 24
        .equ    wai_sem, 25
eat:    sll     $s0, $a0, 16            # the argument has the two forks: 0x10002 is 1 and then 2
        srl     $s0, $s0, 16
        srl     $a0, $a0, 16
        addiu   $v0, $0, wai_sem
        syscall
        move    $s1, $a0
        move    $a0, $s0
        addiu   $v0, $0, wai_sem
        syscall
        addiu   $v0, $0, sig_sem
        syscall
        move    $a0, $s1
        addiu   $v0, $0, sig_sem
        syscall
        addiu   $v0, $0, ext_tsk
        syscall
        .equ    third, 0x30001
