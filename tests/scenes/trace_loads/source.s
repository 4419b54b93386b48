# Each load twice: the first changes its register, and the second leaves the value that it has. Then an SC that stores,
# and one that doesn't. The bytes of the word are 81, 02, 83 and 04.
first:  lui     $s0, 0x8000
        lw      $t0, %lo(word)($s0)
        lw      $t0, %lo(word)($s0)
        lb      $t1, %lo(word)($s0)
        lb      $t1, %lo(word)($s0)
        lbu     $t2, %lo(word+2)($s0)
        lbu     $t2, %lo(word+2)($s0)
        lh      $t3, %lo(word+2)($s0)
        lh      $t3, %lo(word+2)($s0)
        lhu     $t4, %lo(word)($s0)
        lhu     $t4, %lo(word)($s0)
        lwl     $t5, %lo(word+1)($s0)
        lwl     $t5, %lo(word+1)($s0)
        lwr     $t6, %lo(word+1)($s0)
        lwr     $t6, %lo(word+1)($s0)
        ll      $t7, %lo(word)($s0)
        ll      $t7, %lo(word)($s0)
        addiu   $t7, $zero, 1
        sc      $t7, %lo(word)($s0)
        sc      $t7, %lo(word)($s0)
        lw      $zero, %lo(word)($s0)
        .org    0x80000100
word:   .word   0x81028304
