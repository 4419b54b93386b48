# Each service call of a task once, done: by task 1 where nothing is said. Task 2 has a lower priority on the same
# processor, task 3 is on processor 2.
first:  addiu   $a0, $0, 4
        addiu   $v0, $0, 1
        syscall                         # act_tsk: task 4 is dormant
        addiu   $a0, $0, 4
        addiu   $v0, $0, 1
        syscall                         # act_tsk: a request is queued
        addiu   $a0, $0, 4
        addiu   $v0, $0, 2
        syscall                         # can_act: takes it back
        addiu   $a0, $0, 4
        addiu   $a1, $0, 5
        addiu   $v0, $0, 5
        syscall                         # chg_pri
        addiu   $a0, $0, 4
        addiu   $v0, $0, 6
        syscall                         # get_pri
        addiu   $a0, $0, 4
        addiu   $v0, $0, 4
        syscall                         # ter_tsk
        addiu   $a0, $0, 4
        addiu   $a1, $0, 2
        addiu   $v0, $0, 7
        syscall                         # mact_tsk: on processor 2
        addiu   $a0, $0, 4
        addiu   $a1, $0, 1
        addiu   $v0, $0, 8
        syscall                         # mig_tsk: back to processor 1
        addiu   $v0, $0, 9
        syscall                         # get_pid
        addiu   $a0, $0, 0
        addiu   $v0, $0, 10
        syscall                         # rot_rdq
        addiu   $v0, $0, 11
        syscall                         # get_tid
        addiu   $v0, $0, 12
        syscall                         # dis_dsp
        addiu   $v0, $0, 13
        syscall                         # ena_dsp
        addiu   $v0, $0, 14
        syscall                         # loc_cpu
        addiu   $v0, $0, 15
        syscall                         # unl_cpu
        addiu   $a0, $0, 4
        addiu   $v0, $0, 18
        syscall                         # wup_tsk: a wake-up is queued
        addiu   $a0, $0, 4
        addiu   $v0, $0, 19
        syscall                         # can_wup: takes it back
        addiu   $a0, $0, 4
        addiu   $v0, $0, 21
        syscall                         # sus_tsk
        addiu   $a0, $0, 4
        addiu   $v0, $0, 22
        syscall                         # rsm_tsk
        addiu   $a0, $0, 1
        addiu   $v0, $0, 24
        syscall                         # sig_sem
        addiu   $a0, $0, 1
        addiu   $v0, $0, 25
        syscall                         # wai_sem
        addiu   $a0, $0, 1
        addiu   $v0, $0, 24
        syscall                         # sig_sem
        addiu   $a0, $0, 1
        addiu   $v0, $0, 26
        syscall                         # pol_sem
        addiu   $a0, $0, 1
        addiu   $v0, $0, 24
        syscall                         # sig_sem
        addiu   $a0, $0, 1
        addiu   $a1, $0, 9
        addiu   $v0, $0, 27
        syscall                         # twai_sem
        addiu   $a0, $0, 1
        addiu   $a1, $0, 5
        addiu   $v0, $0, 28
        syscall                         # set_flg
        addiu   $a0, $0, 1
        addiu   $a1, $0, 4
        addiu   $v0, $0, 29
        syscall                         # clr_flg
        addiu   $a0, $0, 1
        addiu   $a1, $0, 4
        addiu   $a2, $0, 0
        addiu   $v0, $0, 30
        syscall                         # wai_flg
        addiu   $a0, $0, 1
        addiu   $a1, $0, 4
        addiu   $a2, $0, 1
        addiu   $v0, $0, 31
        syscall                         # pol_flg
        addiu   $a0, $0, 1
        addiu   $a1, $0, 4
        addiu   $a2, $0, 0
        addiu   $a3, $0, -1
        addiu   $v0, $0, 32
        syscall                         # twai_flg
        addiu   $a0, $0, 1
        addiu   $a1, $0, 65
        addiu   $v0, $0, 33
        syscall                         # snd_dtq
        addiu   $a0, $0, 1
        addiu   $a1, $0, 66
        addiu   $v0, $0, 34
        syscall                         # psnd_dtq
        addiu   $a0, $0, 1
        addiu   $v0, $0, 37
        syscall                         # rcv_dtq
        addiu   $a0, $0, 1
        addiu   $a1, $0, 67
        addiu   $a2, $0, 3
        addiu   $v0, $0, 35
        syscall                         # tsnd_dtq
        addiu   $a0, $0, 1
        addiu   $a1, $0, 68
        addiu   $v0, $0, 36
        syscall                         # fsnd_dtq: drops the oldest
        addiu   $a0, $0, 1
        addiu   $v0, $0, 38
        syscall                         # prcv_dtq
        addiu   $a0, $0, 1
        addiu   $a1, $0, 0
        addiu   $v0, $0, 39
        syscall                         # trcv_dtq
        addiu   $a0, $0, 65
        addiu   $v0, $0, 40
        syscall                         # put_chr
        addiu   $a0, $0, 10
        addiu   $v0, $0, 40
        syscall                         # put_chr
        addiu   $a0, $0, 0
        addiu   $v0, $0, 18
        syscall                         # wup_tsk of oneself
        addiu   $v0, $0, 16
        syscall                         # slp_tsk: takes it
        addiu   $a0, $0, 0
        addiu   $v0, $0, 18
        syscall                         # wup_tsk
        addiu   $a0, $0, 7
        addiu   $v0, $0, 17
        syscall                         # tslp_tsk: takes it
        addiu   $v0, $0, 16
        syscall                         # slp_tsk: waits
        addiu   $a0, $0, 1
        addiu   $v0, $0, 23
        syscall                         # dly_tsk: waits for two ticks
        addiu   $v0, $0, 41
        syscall                         # ext_ker
second: addiu   $a0, $0, 1
        addiu   $v0, $0, 18
        syscall                         # wup_tsk of task 1
        addiu   $a0, $0, 0
        addiu   $v0, $0, 1
        syscall                         # act_tsk of oneself: it starts again
        addiu   $v0, $0, 3
        syscall                         # ext_tsk
third:  addiu   $a0, $0, 2
        addiu   $v0, $0, 20
        syscall                         # rel_wai of task 2: none, it doesn't wait
idle:   b       idle
        nop
fourth: b       fourth
        nop
