# 64 watches at once: 62 where RAM has no byte or one that stays, and two that change, at 2 and 4. One of them again is
# `ok`, and stays one; any other is `full`, and none: the byte at 80001001, which changes at 3, is no stop. The breaks
# have a limit of their own: one at the store at 3 makes it a stop.
_start: lui     $gp, 0x8000
        addiu   $t0, $0, 1
        sb      $t0, 0x1000($gp)
        sb      $t0, 0x1001($gp)
        sb      $t0, 0x1002($gp)
        nop
