# For GDB's command monitor: tasks that wait, each for something else, and then one that writes to the console. Before it
# a product, for the registers LO and HI.
        .equ    slp_tsk, 16
        .equ    dly_tsk, 23
        .equ    wai_sem, 25
        .equ    twai_sem, 27
        .equ    wai_flg, 30
        .equ    snd_dtq, 33
        .equ    rcv_dtq, 37
        .equ    put_chr, 40
        .equ    ext_tsk, 3
sleep:  addiu   $v0, $0, slp_tsk
        syscall
delay:  addiu   $a0, $0, 5
        addiu   $v0, $0, dly_tsk
        syscall
take:   addiu   $a0, $0, 1
        addiu   $v0, $0, wai_sem
        syscall
timed:  addiu   $a0, $0, 1
        addiu   $a1, $0, 9
        addiu   $v0, $0, twai_sem
        syscall
flag:   addiu   $a0, $0, 1
        addiu   $a1, $0, 1
        addiu   $a2, $0, 0
        addiu   $v0, $0, wai_flg
        syscall
send:   addiu   $a0, $0, 1
        addiu   $a1, $0, 7
        addiu   $v0, $0, snd_dtq
        syscall
get:    addiu   $a0, $0, 2
        addiu   $v0, $0, rcv_dtq
        syscall
write:  lui     $t0, 0x1234
        addiu   $t1, $0, 0x100
        mult    $t0, $t1
        addiu   $a0, $0, 79
        addiu   $v0, $0, put_chr
        syscall
        addiu   $a0, $0, 107
        addiu   $v0, $0, put_chr
        syscall
        addiu   $v0, $0, ext_tsk
        syscall
