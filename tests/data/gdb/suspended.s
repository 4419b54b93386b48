# For GDB: a task that waits, and one that is ready, are suspended.
        .equ    slp_tsk, 16
        .equ    sus_tsk, 21
        .equ    ext_tsk, 3
sleep:  addiu   $v0, $0, slp_tsk
        syscall
again:  addiu   $t0, $t0, 1
        b       again
        nop
holds:  addiu   $a0, $0, 1
        addiu   $v0, $0, sus_tsk
        syscall
        addiu   $a0, $0, 2
        addiu   $v0, $0, sus_tsk
        syscall
        addiu   $v0, $0, ext_tsk
        syscall
