# A task on each of two processors counts in one word under one lock, and then waits for ticks: the one for the next,
# the other, which has 2 as its argument, for the third. No steps are written down here: tests/programs/debug.sh makes
# the journals, and compares what is shown at each position, in one order of positions and in another, and with what
# `board run` says of the journal up to there.
task:   addu    $s0, $0, $a0            # how many ticks more than one it waits
        lui     $gp, %hi(lock)
take:   ll      $t0, %lo(lock)($gp)
        bnez    $t0, take
        addiu   $t1, $0, 1
        sc      $t1, %lo(lock)($gp)
        beqz    $t1, take
        nop
        lw      $t2, %lo(count)($gp)
        addiu   $t2, $t2, 1
        sw      $t2, %lo(count)($gp)
        sw      $0, %lo(lock)($gp)
        addiu   $s1, $s1, 1
        andi    $t3, $s1, 7
        bnez    $t3, take               # (seven times of eight it doesn't wait)
        addu    $a0, $0, $s0
        addiu   $v0, $0, 23             # dly_tsk
        syscall
        b       take
        nop
        .align  4
lock:   .word   0
        .space  12
count:  .word   0
