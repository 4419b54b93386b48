# A priority inversion. Three tasks share one processor. `low` and `high` need the same semaphore, for a short time each;
# `middle` doesn't, but has much to compute. When `low` has the semaphore, `high` has to wait for it, and meanwhile
# `middle`, which is above `low`, keeps `low` from returning it. So the most urgent task waits for one that it has
# nothing to do with.
        .equ    ext_tsk, 3
        .equ    dly_tsk, 23
        .equ    sig_sem, 24
        .equ    wai_sem, 25
        .equ    bus, 1                  # the semaphore
high:   addiu   $a0, $0, 0
        addiu   $v0, $0, dly_tsk
        syscall                         # until the first tick
        addiu   $a0, $0, bus
        addiu   $v0, $0, wai_sem
        syscall                         # waits for low
        addiu   $v0, $0, sig_sem
        syscall
        addiu   $v0, $0, ext_tsk
        syscall
middle: addiu   $a0, $0, 1
        addiu   $v0, $0, dly_tsk
        syscall                         # until the second tick
        addiu   $t0, $0, 20
work:   addiu   $t0, $t0, -1            # 60 steps of its own
        bnez    $t0, work
        nop
        addiu   $v0, $0, ext_tsk
        syscall
low:    addiu   $a0, $0, bus
        addiu   $v0, $0, wai_sem
        syscall
        addiu   $t0, $0, 4
use:    addiu   $t0, $t0, -1            # 12 steps with the bus
        bnez    $t0, use
        nop
        addiu   $v0, $0, sig_sem
        syscall                         # high goes on
        addiu   $v0, $0, ext_tsk
        syscall
