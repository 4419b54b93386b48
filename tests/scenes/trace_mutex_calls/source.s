# A task takes a mutex, has its ceiling, and gives it back; it can't take what it has, nor give back what it hasn't.
first:  addiu   $a0, $0, 1
        addiu   $v0, $0, 78
        syscall                         # ploc_mtx(1)
        addiu   $a1, $0, 5
        addiu   $v0, $0, 79
        syscall                         # tloc_mtx(1, 5): it has it
        addiu   $a1, $0, 0
        addiu   $v0, $0, 81
        syscall                         # ref_mtx(1, 0): who has it
        addiu   $a0, $0, 0
        addiu   $v0, $0, 6
        syscall                         # get_pri(0): the ceiling
        addiu   $a0, $0, 1
        addiu   $v0, $0, 80
        syscall                         # unl_mtx(1)
        addiu   $v0, $0, 80
        syscall                         # unl_mtx(1): it hasn't it
        addiu   $v0, $0, 77
        syscall                         # loc_mtx(1)
        addiu   $v0, $0, 3
        syscall                         # ext_tsk
