# A lock for readers, of whom several may be inside, or one writer: on three processors, of which one writes two words.
# Broken: who comes looks whether the others are out, and then says that it is in: two steps where one is needed.
# Look for: --exception (of the TNE). Found with 2 preemptions: after the look, and between two accesses of the words.
        .equ    ext_tsk, 3
writer: .word   0
readers: .word  0
x:      .word   0
y:      .word   0
write:  lui     $s0, %hi(readers)
        addiu   $t1, $0, 1
enter:  lw      $t0, %lo(readers)($s0)
        bnez    $t0, enter
        nop
        sw      $t1, %lo(writer)($s0)
        sw      $t1, %lo(x)($s0)
        sw      $t1, %lo(y)($s0)
        sw      $0, %lo(writer)($s0)
        b       end
        nop
read:   lui     $s0, %hi(readers)
look:   lw      $t0, %lo(writer)($s0)
        bnez    $t0, look
        nop
more:   ll      $t0, %lo(readers)($s0)
        addiu   $t0, $t0, 1
        sc      $t0, %lo(readers)($s0)
        beqz    $t0, more
        nop
        lw      $t1, %lo(x)($s0)
        lw      $t2, %lo(y)($s0)
        tne     $t1, $t2
less:   ll      $t0, %lo(readers)($s0)
        addiu   $t0, $t0, -1
        sc      $t0, %lo(readers)($s0)
        beqz    $t0, less
        nop
end:    addiu   $v0, $0, ext_tsk
        syscall
