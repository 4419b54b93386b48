# A task that waits is suspended, resumed while it still waits, suspended again and woken: each begins another state,
# and as long as it waits it is where it began to. `since` has what the summary says of it after each.
sleeper:
        addiu   $v0, $zero, 16
        syscall                         # slp_tsk
        b       sleeper
        nop
other:  addiu   $a0, $zero, 1
        addiu   $v0, $zero, 21
        syscall                         # sus_tsk
        addiu   $v0, $zero, 22
        syscall                         # rsm_tsk
        addiu   $v0, $zero, 21
        syscall                         # sus_tsk
        addiu   $v0, $zero, 18
        syscall                         # wup_tsk
        addiu   $v0, $zero, 22
        syscall                         # rsm_tsk
