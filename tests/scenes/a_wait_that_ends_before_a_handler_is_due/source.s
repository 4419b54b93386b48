# At tick 1 a wait of the more urgent task ends, and two time handlers are due, and a line is raised before it. The task
# runs from then on, and the handlers come by their lines: that of line 31 first.
task:   addiu   $a0, $0, 0
        addiu   $v0, $0, 23
        syscall                         # dly_tsk(0)
        addiu   $v0, $0, 16
        syscall                         # slp_tsk
other:  addiu   $a0, $0, 1
        addiu   $a1, $0, 0
        addiu   $v0, $0, 95
        syscall                         # sta_alm(1, 0)
        addiu   $v0, $0, 16
        syscall                         # slp_tsk
handler: addiu  $v0, $0, 56
        syscall                         # iget_tid
        addiu   $v0, $0, 58
        syscall                         # ret_int
