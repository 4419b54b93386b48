# Three philosophers, repaired: the third one takes the fork on the right first, so all take the lower number first.
# Look for: --deadlock. There is none.
        .equ    ext_tsk, 3
        .equ    sig_sem, 24
        .equ    wai_sem, 25
eat:    sll     $s0, $a0, 16            # the argument has the two forks: 0x10002 is 1 and then 2
        srl     $s0, $s0, 16
        srl     $a0, $a0, 16
        addiu   $v0, $0, wai_sem
        syscall
        move    $s1, $a0
        move    $a0, $s0
        addiu   $v0, $0, wai_sem
        syscall
        addiu   $v0, $0, sig_sem
        syscall
        move    $a0, $s1
        addiu   $v0, $0, sig_sem
        syscall
        addiu   $v0, $0, ext_tsk
        syscall
        .equ    third, 0x10003
