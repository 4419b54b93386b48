# For GDB's command monitor: a task that waits, and an interrupt handler that ends by an exception, so that its processor
# is stopped.
        .equ    wai_sem, 25
wait:   addiu   $a0, $0, 1
        addiu   $v0, $0, wai_sem
        syscall
handler: lui    $t0, 0x8000
        lw      $t1, 1($t0)
