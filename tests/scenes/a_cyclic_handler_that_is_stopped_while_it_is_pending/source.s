# Task 1 stops a cyclic handler that is pending on processor 2, which is CPU-locked. It runs when that has ended, and not
# at tick 2.
task:   addiu   $a0, $0, 1
        addiu   $v0, $0, 94
        syscall                         # stp_cyc(1)
        addiu   $v0, $0, 94
        syscall                         # stp_cyc(1), once more
        addiu   $v0, $0, 99
        syscall                         # ref_cyc(1, 0)
        addiu   $v0, $0, 3
        syscall                         # ext_tsk
other:  addiu   $v0, $0, 14
        syscall                         # loc_cpu
        addiu   $v0, $0, 15
        syscall                         # unl_cpu
        addiu   $v0, $0, 3
        syscall                         # ext_tsk
handler: addiu  $v0, $0, 58
        syscall                         # ret_int
