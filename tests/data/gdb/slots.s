# For GDB: a loop whose branch has an addition in its delay slot, and then a load from an address that is none, in the
# delay slot of a jump: an exception, which ends the task. On another processor a task counts without an end.
        .equ    ext_tsk, 3
first:  addiu   $t0, $0, 3
again:  addiu   $t0, $t0, -1
        bnez    $t0, again
        addiu   $t1, $t1, 1             # (in the delay slot)
        lui     $t2, 0x8000
        b       after
        lw      $t3, 1($t2)             # (in the delay slot)
after:  addiu   $v0, $0, ext_tsk
        syscall
other:  b       other
        addiu   $s0, $s0, 1
