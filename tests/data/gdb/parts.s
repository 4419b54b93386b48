# For GDB: loads and stores of parts of an unaligned word, of a halfword and of a byte, one after the other, whose bytes
# are watched; and a loop that stores in its delay slot.
start:  lui     $t0, %hi(data)
        addiu   $t0, $t0, %lo(data)
        lwl     $t1, 1($t0)
        lwr     $t1, 4($t0)
        lb      $t2, 3($t0)
        swl     $t1, 9($t0)
        swr     $t1, 12($t0)
        sh      $t2, 14($t0)
        ll      $t3, 16($t0)
        sc      $t3, 20($t0)
        addiu   $t3, $0, 3
again:  addiu   $t3, $t3, -1
        bnez    $t3, again
        sw      $t3, 24($t0)            # (in the delay slot)
done:   b       done
        nop
        .align  4
data:   .word   0x01020304, 0x05060708, 0, 0, 1, 2, 9
