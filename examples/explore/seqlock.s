# A seqlock: the writer makes a number odd, writes two words, and makes it even. Who reads wants an even number before,
# and the same one after. The two words are always the same for it; if they weren't, TNE would raise an exception.
# Broken: the reader doesn't look at the number again.
# Look for: --exception. Found with 1 preemption, between the two loads.
        .equ    ext_tsk, 3
number: .word   0
x:      .word   0
y:      .word   0
first:  lui     $s0, %hi(number)        # the writer
        addiu   $t0, $0, 1
        sw      $t0, %lo(number)($s0)
        sw      $t0, %lo(x)($s0)
        sw      $t0, %lo(y)($s0)
        addiu   $t0, $t0, 1
        sw      $t0, %lo(number)($s0)
        b       end
        nop
second: lui     $s0, %hi(number)        # the reader
again:  lw      $t0, %lo(number)($s0)
        andi    $t1, $t0, 1
        bnez    $t1, again
        nop
        lw      $t1, %lo(x)($s0)
        lw      $t2, %lo(y)($s0)
        tne     $t1, $t2
end:    addiu   $v0, $0, ext_tsk
        syscall
