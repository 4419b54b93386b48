# Tasks that wait for each other for mutexes. Task 1 gets mutex 1 when task 3 ends, which has it, and task 2 takes
# mutex 2; then each waits for the other one's.
first:  addiu   $a0, $0, 1
        addiu   $v0, $0, 77
        syscall                         # loc_mtx(1)
        addiu   $a0, $0, 2
        addiu   $v0, $0, 77
        syscall                         # loc_mtx(2)
second: addiu   $a0, $0, 2
        addiu   $v0, $0, 77
        syscall                         # loc_mtx(2)
        addiu   $a0, $0, 1
        addiu   $v0, $0, 77
        syscall                         # loc_mtx(1)
third:  addiu   $a0, $0, 1
        addiu   $v0, $0, 77
        syscall                         # loc_mtx(1)
        addiu   $v0, $0, 3
        syscall                         # ext_tsk
