# A cyclic handler whose times are counted from boot: ticks 2, 5 and 8. It is started at tick 2, after that time, and at
# tick 4; stopped at tick 6, and started again at tick 8: so it is due at ticks 5 and 11.
task:   addiu   $a0, $0, 1
        addiu   $v0, $0, 93
        syscall                         # sta_cyc(1)
        addiu   $a1, $0, 1
        addiu   $v0, $0, 99
        syscall                         # ref_cyc(1, 1)
        addiu   $v0, $0, 93
        syscall                         # sta_cyc(1)
        addiu   $v0, $0, 99
        syscall                         # ref_cyc(1, 1)
        addiu   $v0, $0, 94
        syscall                         # stp_cyc(1)
        addiu   $v0, $0, 99
        syscall                         # ref_cyc(1, 1)
        addiu   $v0, $0, 93
        syscall                         # sta_cyc(1)
        addiu   $a1, $0, 0
        addiu   $v0, $0, 99
        syscall                         # ref_cyc(1, 0)
        addiu   $v0, $0, 3
        syscall                         # ext_tsk
handler: addiu  $v0, $0, 58
        syscall                         # ret_int
