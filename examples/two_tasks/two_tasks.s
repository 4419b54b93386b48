# Two tasks on two processors. `waiter` waits for a semaphore and then writes "B"; `starter` writes "A" and returns the
# semaphore. So the console reads "AB", in whichever order the processors take their steps.
        .equ    sig_sem, 24
        .equ    wai_sem, 25
        .equ    ext_tsk, 3
        .equ    put_chr, 40
waiter: addiu   $a0, $0, 1
        addiu   $v0, $0, wai_sem
        syscall                         # waits for semaphore 1
        addiu   $a0, $0, 66
        addiu   $v0, $0, put_chr
        syscall
        addiu   $v0, $0, ext_tsk
        syscall
starter: addiu  $a0, $0, 65
        addiu   $v0, $0, put_chr
        syscall
        addiu   $a0, $0, 1
        addiu   $v0, $0, sig_sem
        syscall                         # the waiter is ready again
        addiu   $v0, $0, ext_tsk
        syscall
