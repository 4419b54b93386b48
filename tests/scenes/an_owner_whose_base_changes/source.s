# A task has a mutex with a ceiling, and gives itself a base priority below that: its current priority stays, and it goes
# behind its equals all the same. With a base priority above the ceiling it is refused.
one:    addiu   $a0, $0, 1
        addiu   $v0, $0, 77
        syscall                         # loc_mtx(1): the ceiling is 2
        addiu   $a0, $0, 2
        addiu   $v0, $0, 1
        syscall                         # act_tsk(2), of priority 2
        addiu   $a0, $0, 0
        addiu   $a1, $0, 1
        addiu   $v0, $0, 5
        syscall                         # chg_pri(0, 1)
        addiu   $a1, $0, 6
        addiu   $v0, $0, 5
        syscall                         # chg_pri(0, 6)
        addiu   $a1, $0, 2
        addiu   $v0, $0, 73
        syscall                         # ref_tsk(0, 2): the base priority
        addiu   $a0, $0, 1
        addiu   $v0, $0, 80
        syscall                         # unl_mtx(1)
        addiu   $v0, $0, 3
        syscall
two:    addiu   $v0, $0, 3
        syscall
