# What the calls of time handlers refuse, from a task and from a handler, in the order of refusals.
task:   addiu   $v0, $0, 93
        syscall                         # sta_cyc(0)
        addiu   $a0, $0, 256
        addiu   $v0, $0, 94
        syscall                         # stp_cyc(256)
        addiu   $a0, $0, 65
        addiu   $v0, $0, 94
        syscall                         # stp_cyc(65)
        addiu   $a0, $0, 2
        addiu   $v0, $0, 93
        syscall                         # sta_cyc(2)
        addiu   $v0, $0, 99
        addiu   $a1, $0, 2
        syscall                         # ref_cyc(2, 2)
        lui     $a1, 0x8000
        addiu   $v0, $0, 95
        syscall                         # sta_alm(2, 0x80000000)
        addiu   $a1, $a1, -1
        addiu   $v0, $0, 95
        syscall                         # sta_alm(2, 0x7fffffff)
        addiu   $a0, $0, 1
        addiu   $v0, $0, 95
        syscall                         # sta_alm(1, 0x7fffffff)
        addiu   $a1, $0, 1
        addiu   $v0, $0, 100
        syscall                         # ref_alm(1, 1)
        addiu   $v0, $0, 96
        syscall                         # ista_alm(1, 1)
        addiu   $v0, $0, 3
        syscall                         # ext_tsk
handler: addiu  $v0, $0, 95
        syscall                         # sta_alm(1, 0)
        addiu   $v0, $0, 93
        syscall                         # sta_cyc(1)
        addiu   $v0, $0, 98
        addiu   $a0, $0, 1
        syscall                         # istp_alm(1)
        addiu   $v0, $0, 58
        syscall                         # ret_int
