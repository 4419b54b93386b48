# An instruction that writes over itself: it is shown as what was executed, with the word that it stored, and only when
# it comes again as what it wrote.
first:  lui     $t0, 0x8000
        lui     $t1, 0x2402
        ori     $t1, $t1, 7             # the word of addiu $v0, $zero, 7
here:   sw      $t1, %lo(here)($t0)
        b       here
        nop
