# No update is lost. This is racy.s with LL and SC in the place of the load and the store: an SC stores only where no
# other processor has stored to the word since the LL, and says whether it did. If it didn't, the task tries again.
        .equ    ext_tsk, 3
        .equ    sig_sem, 24
        .equ    wai_sem, 25
        .equ    put_chr, 40
        .equ    ext_ker, 41
        .equ    done, 1                 # a semaphore
adder:  lui     $s0, %hi(count)
        addiu   $s1, $0, 3              # how often
again:  ll      $t0, %lo(count)($s0)
        addu    $t0, $t0, $a0           # $a0 is the task's argument
        sc      $t0, %lo(count)($s0)    # $t0 becomes 1 if it stored, else 0
        beqz    $t0, again
        nop
        addiu   $s1, $s1, -1
        bnez    $s1, again
        nop
        addiu   $a0, $0, done
        addiu   $v0, $0, sig_sem
        syscall
        addiu   $v0, $0, ext_tsk
        syscall
show:   addiu   $a0, $0, done
        addiu   $v0, $0, wai_sem
        syscall                         # waits for the one
        addiu   $v0, $0, wai_sem
        syscall                         # and for the other
        lui     $s0, %hi(count)
        lw      $a0, %lo(count)($s0)
        addiu   $a0, $a0, 48            # the count as a digit
        addiu   $v0, $0, put_chr
        syscall
        addiu   $v0, $0, ext_ker
        syscall
        .align  4
count:  .word   0
