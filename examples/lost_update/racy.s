# An update is lost. Two tasks run `adder`, each on a processor of its own. Each adds its argument to the word `count`
# three times: task 1 adds 1, task 2 adds 2. So the count should come to 9, which `show` writes at the end. But a load, an
# addition and a store are three steps, and the other processor may store between them.
        .equ    ext_tsk, 3
        .equ    sig_sem, 24
        .equ    wai_sem, 25
        .equ    put_chr, 40
        .equ    ext_ker, 41
        .equ    done, 1                 # a semaphore
adder:  lui     $s0, %hi(count)
        addiu   $s1, $0, 3              # how often
again:  lw      $t0, %lo(count)($s0)
        addu    $t0, $t0, $a0           # $a0 is the task's argument
        sw      $t0, %lo(count)($s0)
        addiu   $s1, $s1, -1
        bnez    $s1, again
        nop
        addiu   $a0, $0, done
        addiu   $v0, $0, sig_sem
        syscall
        addiu   $v0, $0, ext_tsk
        syscall
show:   addiu   $a0, $0, done
        addiu   $v0, $0, wai_sem
        syscall                         # waits for the one
        addiu   $v0, $0, wai_sem
        syscall                         # and for the other
        lui     $s0, %hi(count)
        lw      $a0, %lo(count)($s0)
        addiu   $a0, $a0, 48            # the count as a digit
        addiu   $v0, $0, put_chr
        syscall
        addiu   $v0, $0, ext_ker
        syscall
        .align  4
count:  .word   0
