# Two tasks run `adder`, each on a processor of its own, and add 1 to the word `count` 500 times each. So it should come to
# 1000, which `show` writes at the end. But a load, an addition and a store are three steps, and the other processor may
# store between them. Whether it does is left to chance: `board race` gives each processor a thread of its own.
        .equ    ext_tsk, 3
        .equ    sig_sem, 24
        .equ    wai_sem, 25
        .equ    put_chr, 40
        .equ    ext_ker, 41
        .equ    done, 1                 # a semaphore
adder:  lui     $s0, %hi(count)
        addiu   $s1, $0, 500            # how often
again:  lw      $t0, %lo(count)($s0)
        addiu   $t0, $t0, 1
        sw      $t0, %lo(count)($s0)
        addiu   $s1, $s1, -1
        bnez    $s1, again
        nop
        addiu   $a0, $0, done
        addiu   $v0, $0, sig_sem
        syscall
        addiu   $v0, $0, ext_tsk
        syscall
show:   addiu   $a0, $0, done
        addiu   $v0, $0, wai_sem
        syscall                         # waits for the one
        addiu   $v0, $0, wai_sem
        syscall                         # and for the other
        lui     $s0, %hi(count)
        lw      $s1, %lo(count)($s0)
        addiu   $s2, $0, 1000           # the place of the digit
digit:  divu    $s1, $s2
        mflo    $a0                     # the digit
        mfhi    $s1                     # what is left
        addiu   $a0, $a0, 48
        addiu   $v0, $0, put_chr
        syscall
        addiu   $t0, $0, 10
        divu    $s2, $t0
        mflo    $s2
        bnez    $s2, digit
        nop
        addiu   $v0, $0, ext_ker
        syscall
        .align  4
count:  .word   0
