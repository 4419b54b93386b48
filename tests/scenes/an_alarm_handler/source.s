# An alarm handler is asked for after 1 tick, and before that time after 2: it is due once, at tick 3. From there it asks
# for itself, for the next tick, and is stopped before that.
task:   addiu   $a0, $0, 2
        addiu   $a1, $0, 1
        addiu   $v0, $0, 95
        syscall                         # sta_alm(2, 1)
        addiu   $a1, $0, 2
        addiu   $v0, $0, 95
        syscall                         # sta_alm(2, 2)
        addiu   $a1, $0, 1
        addiu   $v0, $0, 100
        syscall                         # ref_alm(2, 1)
        addiu   $v0, $0, 16
        syscall                         # slp_tsk
        addiu   $a0, $0, 2
        addiu   $v0, $0, 97
        syscall                         # stp_alm(2)
        addiu   $a1, $0, 0
        addiu   $v0, $0, 100
        syscall                         # ref_alm(2, 0)
        addiu   $v0, $0, 3
        syscall                         # ext_tsk
handler: addiu  $v0, $0, 49             # ($a0 is the task)
        syscall                         # iwup_tsk
        addiu   $a0, $0, 2
        addiu   $a1, $0, 0
        addiu   $v0, $0, 96
        syscall                         # ista_alm(2, 0)
        addiu   $v0, $0, 58
        syscall                         # ret_int
