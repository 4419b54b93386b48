# Each call of the profile: by task 1, while task 2 waits for semaphore 1 and task 3 runs on processor 2, and by the
# handler of line 4. Then a bad word, and two calls that may not come from a handler.
first:  addiu   $a0, $0, 0
        addiu   $v0, $0, 23
        syscall                         # dly_tsk: task 2 comes to wait
        addiu   $v0, $0, 64
        syscall                         # get_tim: one tick has passed
        addiu   $a0, $0, 1000
        addiu   $v0, $0, 65
        syscall                         # set_tim
        addiu   $v0, $0, 64
        syscall                         # get_tim: it is that
        addiu   $v0, $0, 66
        syscall                         # sns_ctx: no handler
        addiu   $v0, $0, 67
        syscall                         # sns_loc: not CPU-locked
        addiu   $v0, $0, 12
        syscall                         # dis_dsp
        addiu   $v0, $0, 68
        syscall                         # sns_dsp: dispatching is disabled
        addiu   $v0, $0, 69
        syscall                         # sns_dpn: so nobody else comes to run
        addiu   $v0, $0, 13
        syscall                         # ena_dsp
        addiu   $v0, $0, 14
        syscall                         # loc_cpu
        addiu   $v0, $0, 67
        syscall                         # sns_loc: CPU-locked
        addiu   $v0, $0, 64
        syscall                         # get_tim: E_CTX
        addiu   $v0, $0, 15
        syscall                         # unl_cpu
        addiu   $a0, $0, 2
        addiu   $v0, $0, 21
        syscall                         # sus_tsk
        addiu   $a0, $0, 2
        addiu   $a1, $0, 0
        addiu   $v0, $0, 73
        syscall                         # ref_tsk: waiting and suspended
        addiu   $a0, $0, 2
        addiu   $v0, $0, 70
        syscall                         # frsm_tsk
        addiu   $a0, $0, 2
        addiu   $v0, $0, 71
        syscall                         # mget_tid: task 3
        addiu   $a0, $0, 1
        addiu   $a1, $0, 2
        addiu   $v0, $0, 72
        syscall                         # mrot_rdq: on processor 2
        addiu   $a0, $0, 3
        addiu   $a1, $0, 0
        addiu   $v0, $0, 73
        syscall                         # ref_tsk: running
        addiu   $a0, $0, 2
        addiu   $a1, $0, 0
        addiu   $v0, $0, 73
        syscall                         # ref_tsk: waiting
        addiu   $a0, $0, 2
        addiu   $a1, $0, 1
        addiu   $v0, $0, 73
        syscall                         # ref_tsk: its priority
        addiu   $a0, $0, 2
        addiu   $a1, $0, 3
        addiu   $v0, $0, 73
        syscall                         # ref_tsk: for a semaphore
        addiu   $a0, $0, 2
        addiu   $a1, $0, 4
        addiu   $v0, $0, 73
        syscall                         # ref_tsk: for that one
        addiu   $a0, $0, 2
        addiu   $a1, $0, 5
        addiu   $v0, $0, 73
        syscall                         # ref_tsk: how many ticks more
        addiu   $a0, $0, 2
        addiu   $a1, $0, 9
        addiu   $v0, $0, 73
        syscall                         # ref_tsk: no such word
        addiu   $a0, $0, 1
        addiu   $a1, $0, 0
        addiu   $v0, $0, 74
        syscall                         # ref_sem: who waits first
        addiu   $a0, $0, 1
        addiu   $a1, $0, 1
        addiu   $v0, $0, 74
        syscall                         # ref_sem: the count
        addiu   $a0, $0, 1
        addiu   $a1, $0, 1
        addiu   $v0, $0, 75
        syscall                         # ref_flg: the pattern
        addiu   $a0, $0, 1
        addiu   $a1, $0, 2
        addiu   $v0, $0, 76
        syscall                         # ref_dtq: what is stored
        addiu   $v0, $0, 121
        syscall                         # no such call
        addiu   $v0, $0, 3
        syscall                         # ext_tsk
second: addiu   $a0, $0, 1
        addiu   $a1, $0, 9
        addiu   $v0, $0, 27
        syscall                         # twai_sem
third:  b       third
        nop
handler:
        addiu   $v0, $0, 112
        syscall                         # iget_pid
        addiu   $v0, $0, 66
        syscall                         # sns_ctx: a handler
        addiu   $v0, $0, 69
        syscall                         # sns_dpn: so nobody else comes to run
        addiu   $v0, $0, 64
        syscall                         # get_tim: not from here
        addiu   $v0, $0, 115
        syscall                         # no isig_tim
        addiu   $v0, $0, 58
        syscall                         # ret_int
