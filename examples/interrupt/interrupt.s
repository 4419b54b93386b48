# An interrupt wakes a task. `background` writes dots for ever. `alarm` has the higher priority, but it sleeps; whenever
# it is woken it writes "!" and sleeps again. The handler of interrupt line 4 wakes it.
        .equ    slp_tsk, 16
        .equ    put_chr, 40
        .equ    iwup_tsk, 49
        .equ    ret_int, 58
alarm:  addiu   $v0, $0, slp_tsk
        syscall                         # waits for a wake-up
        addiu   $a0, $0, 33             # !
        addiu   $v0, $0, put_chr
        syscall
        b       alarm
        nop
background: addiu $a0, $0, 46           # .
dot:    addiu   $v0, $0, put_chr
        syscall
        b       dot
        nop
handler: addiu  $a0, $0, 1              # task 1, which is `alarm`
        addiu   $v0, $0, iwup_tsk
        syscall
        addiu   $v0, $0, ret_int
        syscall                         # ends the handler
