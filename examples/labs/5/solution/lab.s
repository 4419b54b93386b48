# Lab 5, solved. Three tasks share one processor. `low` and `high` need the bus, each for some time, and a semaphore
# guards it; `middle` doesn't need it, but has much to compute. While `low` has the bus it is as urgent as `high`, who
# may want it: so `middle` can't keep it from giving the bus back, and whenever the ticks come, "Hm" is written.
        .equ    ext_tsk, 3
        .equ    chg_pri, 5
        .equ    dly_tsk, 23
        .equ    sig_sem, 24
        .equ    wai_sem, 25
        .equ    put_chr, 40
        .equ    bus, 1                  # the semaphore

# Only who has the bus stores to `device`, and only `high`, while it has it, writes its letter.
high:   addiu   $a0, $0, 0
        addiu   $v0, $0, dly_tsk
        syscall                         # until the first tick
        addiu   $a0, $0, bus
        addiu   $v0, $0, wai_sem
        syscall
        lui     $s0, %hi(given)
        lw      $a0, %lo(given+8)($s0)
        lui     $s1, %hi(device)
        sw      $a0, %lo(device)($s1)
        addiu   $v0, $0, put_chr
        syscall
        addiu   $a0, $0, bus
        addiu   $v0, $0, sig_sem
        syscall
        addiu   $v0, $0, ext_tsk
        syscall

middle: addiu   $a0, $0, 1
        addiu   $v0, $0, dly_tsk
        syscall                         # until the second tick
        lui     $s0, %hi(given)
        lw      $t0, %lo(given+4)($s0)
work:   addiu   $t0, $t0, -1
        bnez    $t0, work
        nop
        lw      $a0, %lo(given+12)($s0)
        addiu   $v0, $0, put_chr
        syscall
        addiu   $v0, $0, ext_tsk
        syscall

low:    addiu   $a0, $0, 0              # itself
        addiu   $a1, $0, 1              # as urgent as high: before it has the bus, and not a step later
        addiu   $v0, $0, chg_pri
        syscall
        addiu   $a0, $0, bus
        addiu   $v0, $0, wai_sem
        syscall
        lui     $s0, %hi(given)
        lw      $t0, %lo(given)($s0)
        lui     $s1, %hi(device)
use:    sw      $t0, %lo(device)($s1)
        addiu   $t0, $t0, -1
        bnez    $t0, use
        nop
        addiu   $a0, $0, bus
        addiu   $v0, $0, sig_sem
        syscall
        addiu   $a0, $0, 0
        addiu   $a1, $0, 0              # as at its start: now high goes on
        addiu   $v0, $0, chg_pri
        syscall
        addiu   $v0, $0, ext_tsk
        syscall

        .align  2
# How often `low` stores, how long `middle` computes, and the letters of `high` and of `middle`.
given:  .word   6, 20, 72, 109
device: .word   0
