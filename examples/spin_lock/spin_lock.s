# No update is lost. This is racy.s of lost_update with a spin lock around the load, the addition and the store: while
# one processor holds it, another that asks for it makes the same call again and again.
        .equ    ext_tsk, 3
        .equ    sig_sem, 24
        .equ    wai_sem, 25
        .equ    put_chr, 40
        .equ    ext_ker, 41
        .equ    loc_spn, 60
        .equ    unl_spn, 62
        .equ    done, 1                 # a semaphore
        .equ    lock, 1                 # a spin lock
adder:  addu    $s2, $0, $a0            # $a0 is the task's argument
        lui     $s0, %hi(count)
        addiu   $s1, $0, 3              # so many times
        addiu   $a0, $0, lock
again:  addiu   $v0, $0, loc_spn
take:   syscall                         # comes again while the lock is held
        lw      $t0, %lo(count)($s0)
        addu    $t0, $t0, $s2
        sw      $t0, %lo(count)($s0)
        addiu   $v0, $0, unl_spn
give:   syscall
        addiu   $s1, $s1, -1
        bnez    $s1, again
        nop
        addiu   $a0, $0, done
        addiu   $v0, $0, sig_sem
        syscall
        addiu   $v0, $0, ext_tsk
        syscall
show:   addiu   $a0, $0, done
        addiu   $v0, $0, wai_sem
        syscall                         # waits for the one
        addiu   $v0, $0, wai_sem
        syscall                         # and for the other
        lui     $s0, %hi(count)
        lw      $a0, %lo(count)($s0)
        addiu   $a0, $a0, 48            # the count as a digit
        addiu   $v0, $0, put_chr
        syscall
        addiu   $v0, $0, ext_ker
        syscall
        .align  4
count:  .word   0
