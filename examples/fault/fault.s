# A meter with a mistake, which docs/DEBUGGING.md looks for. On processor 1 `show` writes the chosen sample to the
# console, once in three ticks. On processor 2 `meter` marks its eight samples as empty, and then counts in the first
# one. But it marks nine words, and the ninth is `chosen`, the address of the sample that is shown. So the next load
# through it raises an address error, which ends `show`.
        .equ    dly_tsk, 23
        .equ    put_chr, 40
show:   lui     $s0, %hi(chosen)
again:  lw      $t0, %lo(chosen)($s0)   # where the chosen sample lies
        lw      $a0, 0($t0)             # the sample
        addiu   $v0, $0, put_chr
        syscall
        addiu   $a0, $0, 2
        addiu   $v0, $0, dly_tsk
        syscall                         # waits for the third tick from here
        b       again
        nop
meter:  lui     $t0, %hi(samples)
        addiu   $t0, $t0, %lo(samples)
        addiu   $t1, $t0, 32            # the end of the samples
        addiu   $t2, $0, -1             # what marks a sample as empty
mark:   sw      $t2, 0($t0)
        sltu    $t3, $t0, $t1           # the mistake: it compares the word just marked, not the one to be marked next
        bnez    $t3, mark
        addiu   $t0, $t0, 4             # (in the branch's delay slot)
        lui     $s0, %hi(samples)
count:  addiu   $s1, $s1, 1
        b       count
        sw      $s1, %lo(samples)($s0)
        .align  4
samples: .word  65, 66, 67, 68, 69, 70, 71, 72
chosen: .word   samples
