# Watched bytes: a store is a stop where it changes one, whatever the instruction, and none where it leaves them. One
# event is one instruction, so a position is the number of the instruction behind it; the comments have these numbers,
# and the bytes of the two words at 80001000 that change. At a stop the bytes are those before the store. The store that
# raises an exception leaves them. Watches of addresses outside RAM are never stops.
_start: lui     $gp, 0x8000
        addiu   $t0, $0, 0x11
        sb      $t0, 0x1001($gp)    # 2: byte 1 from 00 to 11
        sb      $t0, 0x1001($gp)    # 3: none, byte 1 is 11
        sh      $t0, 0x1000($gp)    # 4: none, bytes 0 and 1 are 00 11
        sh      $t0, 0x1002($gp)    # 5: byte 3 from 00 to 11
        lui     $t1, 0x1100
        ori     $t1, $t1, 0x22      # 11000022
        sw      $t1, 0x1000($gp)    # 8: byte 0 from 00 to 11, byte 1 from 11 to 00, byte 3 from 11 to 22
        sw      $t1, 0x1000($gp)    # 9: none
        swl     $t1, 0x1002($gp)    # 10: 11 00 into bytes 2 and 3: byte 2 from 00 to 11, byte 3 from 22 to 00
        swr     $t1, 0x1005($gp)    # 11: 00 22 into bytes 4 and 5: byte 5 from 00 to 22
        swl     $t1, 0x1002($gp)    # 12: none
        swr     $t1, 0x1005($gp)    # 13: none
        ll      $t2, 0x1004($gp)    # 14: 00220000
        addiu   $t3, $t2, 1
        sc      $t3, 0x1004($gp)    # 16: it stores 00220001: byte 7 from 00 to 01
        addiu   $t4, $0, 0x77
        sc      $t4, 0x1004($gp)    # 18: none, it stores nothing: the SC before ended the link
        ll      $t5, 0x1004($gp)
        sc      $t5, 0x1004($gp)    # 20: none, it stores what is there
        addiu   $t6, $0, 0x55
        sw      $t6, 0x1002($gp)    # 22: none, an address error
