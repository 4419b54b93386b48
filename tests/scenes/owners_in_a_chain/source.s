# `high` waits for what `middle` has, and `middle` for what `low` has, each on a processor of its own: both have the
# priority of `high`. It goes down the chain as far as that reaches: when the wait of `middle` is released, `low` has its
# own again, also while it is suspended, and `middle` has its own when it is ended, by which `high` gets the mutex.
low:    addiu   $a0, $0, 1
        addiu   $v0, $0, 77
        syscall                         # loc_mtx(1)
on:     b       on
        nop
middle: addiu   $a0, $0, 2
        addiu   $v0, $0, 77
        syscall                         # loc_mtx(2)
        addiu   $a0, $0, 1
        addiu   $a1, $0, 2
        addiu   $v0, $0, 79
        syscall                         # tloc_mtx(1, 2)
        b       on
        nop
high:   addiu   $a0, $0, 2
        addiu   $v0, $0, 77
        syscall                         # loc_mtx(2)
        addiu   $v0, $0, 3
        syscall
boss:   addiu   $a0, $0, 3
        addiu   $v0, $0, 21
        syscall                         # sus_tsk(low)
        addiu   $a0, $0, 2
        addiu   $v0, $0, 20
        syscall                         # rel_wai(middle)
        addiu   $a0, $0, 2
        addiu   $v0, $0, 4
        syscall                         # ter_tsk(middle)
        addiu   $v0, $0, 3
        syscall
