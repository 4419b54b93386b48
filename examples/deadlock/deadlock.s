# A deadlock. Two tasks on two processors need two semaphores, each of which guards something that only one task may use
# at a time. `copy` takes them in the one order, `print` in the other. So each gets its first one, and then waits for
# the other's, which is never returned.
        .equ    sig_sem, 24
        .equ    wai_sem, 25
        .equ    disk, 1                 # a semaphore
        .equ    printer, 2              # another one
copy:   addiu   $a0, $0, disk
        addiu   $v0, $0, wai_sem
        syscall
        addiu   $a0, $0, printer
        addiu   $v0, $0, wai_sem
        syscall                         # waits for print
        addiu   $v0, $0, sig_sem
        syscall
        addiu   $a0, $0, disk
        addiu   $v0, $0, sig_sem
        syscall
        b       copy
        nop
print:  addiu   $a0, $0, printer
        addiu   $v0, $0, wai_sem
        syscall
        addiu   $a0, $0, disk
        addiu   $v0, $0, wai_sem
        syscall                         # waits for copy
        addiu   $v0, $0, sig_sem
        syscall
        addiu   $a0, $0, printer
        addiu   $v0, $0, sig_sem
        syscall
        b       print
        nop
