# Processors 2 and 3 link the word by an LL, and 3 does twice. A store of processor 1 to the word ends both links, and its
# line says so; a second one ends none. Then the SC of processor 2 doesn't store. A link is ended too by a store beside
# the word, in its 16 bytes, but by none beyond these; and the SC of a processor that ends its own link says no more.
one:    lui     $s0, %hi(word)
        sw      $0, %lo(word)($s0)
        sw      $0, %lo(word)($s0)
        sb      $0, %lo(word+15)($s0)
        sw      $0, %lo(word+16)($s0)
        nop
two:    lui     $s0, %hi(word)
        ll      $t0, %lo(word)($s0)
        addiu   $t0, $t0, 1
        sc      $t0, %lo(word)($s0)
        ll      $t0, %lo(word)($s0)
        sc      $t0, %lo(word)($s0)
        nop
three:  lui     $s0, %hi(word)
        ll      $t0, %lo(word)($s0)
        ll      $t0, %lo(word)($s0)
        ll      $t0, %lo(word)($s0)
        addiu   $t0, $0, 5
        sc      $t0, %lo(word)($s0)
        nop
        .org    0x80000100
word:   .word   7
        .word   0, 0, 0, 0
