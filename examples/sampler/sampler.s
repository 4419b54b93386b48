# Who runs on processor 2? A cyclic handler there asks every three ticks, and sends the answer to a task on processor 1.
# After six samples the task stops the handler, and waits by an alarm handler until it is sure that no more come.
        .equ    slp_tsk, 16
        .equ    dly_tsk, 23
        .equ    rcv_dtq, 37
        .equ    prcv_dtq, 38
        .equ    put_chr, 40
        .equ    ext_ker, 41
        .equ    iwup_tsk, 49
        .equ    ipsnd_dtq, 53
        .equ    iget_tid, 56
        .equ    ret_int, 58
        .equ    stp_cyc, 94
        .equ    sta_alm, 95
        .equ    samples, 1              # the data queue
        .equ    sampler, 1              # the cyclic handler
        .equ    pause, 1                # the alarm handler

# Processor 1.
show:   addiu   $s0, $0, 6
next:   addiu   $a0, $0, samples
        addiu   $v0, $0, rcv_dtq
        syscall
        addiu   $a0, $v1, 48            # the task's number, as a digit
        addiu   $v0, $0, put_chr
        syscall
        addiu   $s0, $s0, -1
        bnez    $s0, next
        nop
        addiu   $a0, $0, sampler
        addiu   $v0, $0, stp_cyc
        syscall                         # no more samples
        addiu   $a0, $0, pause
        addiu   $a1, $0, 6
        addiu   $v0, $0, sta_alm
        syscall                         # six ticks later ..
        addiu   $v0, $0, slp_tsk
        syscall
        addiu   $a0, $0, samples
        addiu   $v0, $0, prcv_dtq
        syscall                         # .. none has come: E_TMOUT
        bnez    $v0, end
        nop
        addiu   $a0, $v1, 48
        addiu   $v0, $0, put_chr
        syscall
end:    addiu   $v0, $0, ext_ker
        syscall
wake:   addiu   $v0, $0, iwup_tsk       # ($a0 is the task, as the configuration says)
        syscall
        addiu   $v0, $0, ret_int
        syscall

# Processor 2.
worker: addiu   $t0, $0, 4
work:   addiu   $t0, $t0, -1
        bnez    $t0, work
        nop
        addiu   $a0, $0, 5
        addiu   $v0, $0, dly_tsk
        syscall
        b       worker
        nop
idler:  b       idler
        nop
sample: addiu   $v0, $0, iget_tid       # ($a0 is the queue, as the configuration says)
        syscall
        addu    $a1, $v1, $0
        addiu   $v0, $0, ipsnd_dtq
        syscall
        addiu   $v0, $0, ret_int
        syscall
