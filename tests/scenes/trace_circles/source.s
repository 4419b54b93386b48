# Tasks that wait for each other while task 3 runs on. Task 2 takes semaphores 2 and 1, and gives 1 to task 1, which waits
# for it; then each waits for the other one's, and task 4 for that of task 1. Task 8 has both units of semaphore 5, and
# waits for a third. The others aren't among them: a tick ends the wait of task 5, task 3, which runs, has the semaphore
# that task 6 waits for, and that of task 7 was given by a handler.
first:  addiu   $a0, $0, 1
        addiu   $v0, $0, 25
        syscall                         # wai_sem(1)
        addiu   $a0, $0, 2
        addiu   $v0, $0, 25
        syscall                         # wai_sem(2)
second: addiu   $a0, $0, 2
        addiu   $v0, $0, 25
        syscall                         # wai_sem(2)
        addiu   $a0, $0, 1
        addiu   $v0, $0, 26
        syscall                         # pol_sem(1)
        addiu   $v0, $0, 24
        syscall                         # sig_sem(1)
        addiu   $v0, $0, 25
        syscall                         # wai_sem(1)
third:  addiu   $a0, $0, 3
        addiu   $v0, $0, 26
        syscall                         # pol_sem(3)
run:    b       run
        nop
fourth: addiu   $a0, $0, 1
        addiu   $v0, $0, 25
        syscall                         # wai_sem(1)
fifth:  addiu   $a0, $0, 1
        addiu   $a1, $0, 100
        addiu   $v0, $0, 27
        syscall                         # twai_sem(1, 100)
sixth:  addiu   $a0, $0, 3
        addiu   $v0, $0, 25
        syscall                         # wai_sem(3)
seventh: addiu  $a0, $0, 4
        addiu   $v0, $0, 25
        syscall                         # wai_sem(4)
        b       seventh
        nop
eighth: addiu   $a0, $0, 5
        addiu   $v0, $0, 25
        syscall                         # wai_sem(5)
        b       eighth
        nop
handler: addiu  $a0, $0, 4
        addiu   $v0, $0, 51
        syscall                         # isig_sem(4)
        addiu   $v0, $0, 58
        syscall                         # ret_int
