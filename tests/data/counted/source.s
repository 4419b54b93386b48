# Calls, faults, ticks and interrupts of many kinds, over and over; the test puts a line in front that says in which
# round task 1 turns the board off, as `.equ last, 1`.
#
# Task 1 (processor 1) starts task 3, which ends by an exception, and calls on each object. Tasks 2 and 4 (processor 2)
# wait for all that can be waited for, mostly until a tick. Task 5 (processor 3) uses LL and SC, and is suspended and
# resumed. The handler of line 4 (processor 2) releases and starts the others.
first:  addiu   $s0, $s0, 1
        addiu   $t0, $0, last
        beq     $s0, $t0, done
        addiu   $a0, $0, 3
        addiu   $v0, $0, 1              # act_tsk(3)
        syscall
        addiu   $a0, $0, 1
        addiu   $v0, $0, 24             # sig_sem(1)
        syscall
        addiu   $a0, $0, 1
        addiu   $a1, $0, 3
        addiu   $v0, $0, 28             # set_flg(1, 3)
        syscall
        addiu   $a0, $0, 1
        addiu   $a1, $0, 7
        addiu   $v0, $0, 36             # fsnd_dtq(1, 7)
        syscall
        addiu   $a0, $0, 2
        addiu   $a1, $0, 8
        addiu   $a2, $0, 1
        addiu   $v0, $0, 35             # tsnd_dtq(2, 8, 1)
        syscall
        addiu   $a0, $0, 4
        addiu   $v0, $0, 18             # wup_tsk(4)
        syscall
        addiu   $a0, $0, 5
        andi    $a1, $s0, 7
        addiu   $a1, $a1, 1
        addiu   $v0, $0, 5              # chg_pri(5, 1 to 8)
        syscall
        addiu   $a0, $0, 99
        addiu   $v0, $0, 24             # sig_sem(99), which is refused
        syscall
        b       first
        nop
done:   addiu   $v0, $0, 41             # ext_ker
        syscall

second: addiu   $a0, $0, 1
        addiu   $a1, $0, 2
        addiu   $v0, $0, 27             # twai_sem(1, 2)
        syscall
        addiu   $a0, $0, 1
        addiu   $a1, $0, 1
        addiu   $a2, $0, 0
        addiu   $a3, $0, 2
        addiu   $v0, $0, 32             # twai_flg(1, 1, 0, 2)
        syscall
        addiu   $a0, $0, 1
        addiu   $a1, $0, 1
        addiu   $v0, $0, 39             # trcv_dtq(1, 1)
        syscall
        addiu   $a0, $0, 2
        addiu   $a1, $0, 1
        addiu   $v0, $0, 39             # trcv_dtq(2, 1)
        syscall
        addiu   $a0, $0, 1
        addiu   $v0, $0, 23             # dly_tsk(1)
        syscall
        b       second
        nop

fourth: addiu   $a0, $0, 3
        addiu   $v0, $0, 17             # tslp_tsk(3)
        syscall
        addiu   $a0, $0, 5
        addiu   $v0, $0, 21             # sus_tsk(5)
        syscall
        addiu   $a0, $0, 5
        addiu   $v0, $0, 22             # rsm_tsk(5)
        syscall
        addiu   $a0, $0, 0
        addiu   $v0, $0, 10             # rot_rdq(0)
        syscall
        b       fourth
        nop

fifth:  lui     $s1, 0x8000
        ori     $s1, $s1, 0x8000
retry:  ll      $t0, 0($s1)
        addiu   $t0, $t0, 1
        sc      $t0, 0($s1)
        beqz    $t0, retry
        nop
        lw      $t1, 4($s1)
        sw      $t0, 8($s1)
        b       retry
        nop

third:  break                           # an exception ends task 3

handler:
        addiu   $a0, $0, 1
        addiu   $v0, $0, 51             # isig_sem(1)
        syscall
        addiu   $a0, $0, 1
        addiu   $a1, $0, 1
        addiu   $v0, $0, 52             # iset_flg(1, 1)
        syscall
        addiu   $a0, $0, 3
        addiu   $v0, $0, 48             # iact_tsk(3)
        syscall
        addiu   $a0, $0, 4
        addiu   $v0, $0, 49             # iwup_tsk(4)
        syscall
        addiu   $a0, $0, 2
        addiu   $a1, $0, 9
        addiu   $v0, $0, 53             # ipsnd_dtq(2, 9)
        syscall
        addiu   $v0, $0, 58             # ret_int
        syscall
