# For GDB: a task that assigns itself to processor 2, where it goes on once a task of a higher priority has ended. In its
# place on processor 1 another task counts without an end.
        .equ    ext_tsk, 3
        .equ    mig_tsk, 8
mover:  addiu   $a0, $0, 0              # the caller
        addiu   $a1, $0, 2              # to processor 2
        addiu   $v0, $0, mig_tsk
        syscall
        addiu   $t0, $v0, 1             # (on processor 2)
        addiu   $v0, $0, ext_tsk
        syscall
first:  addiu   $t1, $0, 3
again:  addiu   $t1, $t1, -1
        bnez    $t1, again
        nop
        addiu   $v0, $0, ext_tsk
        syscall
other:  b       other
        addiu   $s0, $s0, 1
