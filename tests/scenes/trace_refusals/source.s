# Each answer that isn't E_OK once, of task 1, in the order of the kernel's table; E_RLWAI and E_TMOUT of waits are in waits/.
# Task 2 is dormant and task 3 waits for flag 1, of which only one task may wait; nobody waits for semaphore 1, which is full.
first:  addiu   $v0, $0, 106
        syscall                         # no such call: E_RSFN
        addiu   $v0, $0, 58
        syscall                         # ret_int of a task: E_CTX
        addiu   $a0, $0, 0
        addiu   $v0, $0, 24
        syscall                         # sig_sem(0): E_ID
        addiu   $a0, $0, 1
        addiu   $a1, $0, 17
        addiu   $v0, $0, 5
        syscall                         # chg_pri(1, 17): E_PAR
        addiu   $a0, $0, 9
        addiu   $a1, $0, 1
        addiu   $v0, $0, 5
        syscall                         # chg_pri(9, 1): E_NOEXS
        addiu   $a0, $0, 1
        addiu   $a1, $0, 1
        addiu   $a2, $0, 0
        addiu   $v0, $0, 30
        syscall                         # wai_flg: E_ILUSE
        addiu   $a0, $0, 2
        addiu   $v0, $0, 6
        syscall                         # get_pri(2): E_OBJ
        addiu   $a0, $0, 1
        addiu   $v0, $0, 24
        syscall                         # sig_sem(1): E_QOVR
        addiu   $a0, $0, 1
        addiu   $v0, $0, 38
        syscall                         # prcv_dtq(1): E_TMOUT
        addiu   $a0, $0, 9
        addiu   $a1, $0, 2
        addiu   $v0, $0, 5
        syscall                         # chg_pri(9, 2): E_NOEXS again
        addiu   $v0, $0, 107
        syscall                         # no such call again
end:    b       end
        nop
second: b       second
        nop
third:  addiu   $a0, $0, 1
        addiu   $a1, $0, 1
        addiu   $a2, $0, 0
        addiu   $v0, $0, 30
        syscall                         # wai_flg(1, 1, 0)
