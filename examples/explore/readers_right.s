# A lock for readers, of whom several may be inside, or one writer: on three processors, of which one writes two words.
# Right: one word has how many readers are inside, or -1 for the writer, and LL and SC look at it and change it.
# Look for: --exception (of the TNE). There is none.
        .equ    ext_tsk, 3
readers: .word  0
x:      .word   0
y:      .word   0
write:  lui     $s0, %hi(readers)
        addiu   $t1, $0, 1
enter:  ll      $t0, %lo(readers)($s0)
        bnez    $t0, enter
        addiu   $t0, $0, -1
        sc      $t0, %lo(readers)($s0)
        beqz    $t0, enter
        nop
        sw      $t1, %lo(x)($s0)
        sw      $t1, %lo(y)($s0)
        sw      $0, %lo(readers)($s0)
        b       end
        nop
read:   lui     $s0, %hi(readers)
more:   ll      $t0, %lo(readers)($s0)
        bltz    $t0, more
        addiu   $t0, $t0, 1
        sc      $t0, %lo(readers)($s0)
        beqz    $t0, more
        nop
        lw      $t1, %lo(x)($s0)
        lw      $t2, %lo(y)($s0)
        tne     $t1, $t2
less:   ll      $t0, %lo(readers)($s0)
        addiu   $t0, $t0, -1
        sc      $t0, %lo(readers)($s0)
        beqz    $t0, less
        nop
end:    addiu   $v0, $0, ext_tsk
        syscall
