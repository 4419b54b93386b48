# Peterson's lock for two processors (G. L. Peterson, Myths about the mutual exclusion problem, 1981).
# Right: first the flag, then the turn.
# Look for: --word inside=0..1. There is none.
        .equ    ext_tsk, 3
flags:  .word   0, 0
turn:   .word   0
inside: .word   0
main:   lui     $s0, %hi(flags)
        sll     $s1, $a0, 2
        addu    $s1, $s0, $s1           # this one's flag
        xori    $t2, $a0, 1
        sll     $s2, $t2, 2
        addu    $s2, $s0, $s2           # the other one's
        addiu   $t0, $0, 1
        sw      $t0, %lo(flags)($s1)
        sw      $t2, %lo(turn)($s0)
wait:   lw      $t1, %lo(flags)($s2)
        beqz    $t1, enter
        nop
        lw      $t1, %lo(turn)($s0)
        beq     $t1, $t2, wait
        nop
enter:  lw      $t0, %lo(inside)($s0)   # how many are inside: one, this one
        addiu   $t0, $t0, 1
        sw      $t0, %lo(inside)($s0)
        addiu   $t0, $t0, -1
        sw      $t0, %lo(inside)($s0)
        sw      $0, %lo(flags)($s1)
        addiu   $v0, $0, ext_tsk
        syscall
