# Each service call of a handler once, done, on processor 1. Task 1 sleeps, task 2 waits for semaphore 1, task 3 for a
# bit of event flag 1, task 4 delays itself, task 5 waits to receive. Task 6, of the lowest priority, is dormant.
one:    addiu   $v0, $0, 16
        syscall                         # slp_tsk
        b       one
        nop
two:    addiu   $a0, $0, 1
        addiu   $v0, $0, 25
        syscall                         # wai_sem
        b       two
        nop
three:  addiu   $a0, $0, 1
        addiu   $a1, $0, 2
        addiu   $a2, $0, 1
        addiu   $v0, $0, 30
        syscall                         # wai_flg
        b       three
        nop
four:   addiu   $a0, $0, 9
        addiu   $v0, $0, 23
        syscall                         # dly_tsk
        b       four
        nop
five:   addiu   $a0, $0, 1
        addiu   $v0, $0, 37
        syscall                         # rcv_dtq
        b       five
        nop
six:    b       six
        nop
handler: addiu   $a0, $0, 6
        addiu   $v0, $0, 48
        syscall                         # iact_tsk
        addiu   $a0, $0, 1
        addiu   $v0, $0, 49
        syscall                         # iwup_tsk
        addiu   $a0, $0, 4
        addiu   $v0, $0, 50
        syscall                         # irel_wai
        addiu   $a0, $0, 1
        addiu   $v0, $0, 51
        syscall                         # isig_sem
        addiu   $a0, $0, 1
        addiu   $a1, $0, 2
        addiu   $v0, $0, 52
        syscall                         # iset_flg
        addiu   $a0, $0, 1
        addiu   $a1, $0, 7
        addiu   $v0, $0, 53
        syscall                         # ipsnd_dtq
        addiu   $a0, $0, 1
        addiu   $a1, $0, 8
        addiu   $v0, $0, 54
        syscall                         # ifsnd_dtq
        addiu   $a0, $0, 1
        addiu   $v0, $0, 55
        syscall                         # irot_rdq
        addiu   $v0, $0, 56
        syscall                         # iget_tid
        addiu   $a0, $0, 7
        addiu   $a1, $0, 2
        addiu   $v0, $0, 57
        syscall                         # imact_tsk
        addiu   $a0, $0, 1
        addiu   $v0, $0, 24
        syscall                         # sig_sem of a handler: E_CTX
        addiu   $v0, $0, 58
        syscall                         # ret_int
seven:  b       seven
        nop
