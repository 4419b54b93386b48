# A cyclic handler works from boot on, and is due at ticks 1, 3 and so on. At tick 1 it is started anew: its next times
# are ticks 4 and 6.
task:   addiu   $v0, $0, 16
        syscall                         # slp_tsk
        addiu   $a0, $0, 64
        addiu   $v0, $0, 93
        syscall                         # sta_cyc(64)
        addiu   $a1, $0, 1
        addiu   $v0, $0, 99
        syscall                         # ref_cyc(64, 1): ticks 2 and 3 pass before it is due
        addiu   $v0, $0, 16
        syscall                         # slp_tsk
        b       task
        nop
handler: addiu  $v0, $0, 49             # ($a0 is the task)
        syscall                         # iwup_tsk
        addiu   $v0, $0, 58
        syscall                         # ret_int
