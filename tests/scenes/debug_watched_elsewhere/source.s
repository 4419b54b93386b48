# Watched bytes are stops whoever stores: a task of each processor, and a handler. 4: processor 2 stores into the block
# of processor 1's link, so that the SC at 5 stores nothing and is no stop; the one at 8 stores. 9 raises line 5, 10 is
# a tick, and 11 accepts the interrupt. 16: processor 2 stores again.
one:    lui     $gp, 0x8000         # 80000000: 0
        ll      $t0, 0x1000($gp)    # 80000004: 1
        addiu   $t1, $0, 1          # 80000008: 2
        sc      $t1, 0x1000($gp)    # 8000000c: 5, nothing
        ll      $t0, 0x1000($gp)    # 80000010: 6
        addiu   $t2, $t0, 1         # 80000014: 7
        sc      $t2, 0x1000($gp)    # 80000018: 8, byte 80001003 from 00 to 01
        nop                         # 8000001c: 17
two:    lui     $gp, 0x8000         # 80000020: 3
        sw      $gp, 0x1004($gp)    # 80000024: 4, byte 80001004 from 00 to 80
        sb      $sp, 0x1003($gp)    # 80000028: 16, byte 80001003 from 05 to 00
handler: lui    $gp, 0x8000         # 8000002c: 12
        sb      $a0, 0x1003($gp)    # 80000030: 13, byte 80001003 from 01 to 05
        addiu   $v0, $0, 58         # 80000034: 14
        syscall                     # 80000038: 15
