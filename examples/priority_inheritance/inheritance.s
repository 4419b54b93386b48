# The same three tasks, with a mutex in place of the semaphore. While `high` waits for what `low` has, `low` has the
# priority of `high`, so `middle` can't keep it from giving the bus back.
        .equ    ext_tsk, 3
        .equ    dly_tsk, 23
        .equ    loc_mtx, 77
        .equ    unl_mtx, 80
        .equ    bus, 1                  # the mutex
high:   addiu   $a0, $0, 0
        addiu   $v0, $0, dly_tsk
        syscall                         # until the first tick
        addiu   $a0, $0, bus
        addiu   $v0, $0, loc_mtx
        syscall                         # waits for low, and lifts it
        addiu   $v0, $0, unl_mtx
        syscall
        addiu   $v0, $0, ext_tsk
        syscall
middle: addiu   $a0, $0, 1
        addiu   $v0, $0, dly_tsk
        syscall                         # until the second tick
        addiu   $t0, $0, 20
work:   addiu   $t0, $t0, -1            # 60 steps of its own
        bnez    $t0, work
        nop
        addiu   $v0, $0, ext_tsk
        syscall
low:    addiu   $a0, $0, bus
        addiu   $v0, $0, loc_mtx
        syscall
        addiu   $t0, $0, 4
use:    addiu   $t0, $t0, -1            # 12 steps with the bus
        bnez    $t0, use
        nop
        addiu   $v0, $0, unl_mtx
        syscall                         # high goes on, and low comes down
        addiu   $v0, $0, ext_tsk
        syscall
