# A break is where an instruction raises an exception, too, by its own address: also where the fetch does so, outside
# RAM (3) and at an address that isn't aligned (8); where the word stands for no instruction (10); and in a delay slot
# (14), where the exception's EPC is the address of the branch. Each exception ends a task, and the next one runs. The
# positions are the numbers of the instructions in the order in which they come.
one:    lui     $t0, 0x9000     # 80000000: 0
        jr      $t0             # 80000004: 1
        nop                     # 80000008: 2; then 90000000: 3
two:    lui     $t0, 0x8000     # 8000000c: 4
        ori     $t0, $t0, 2     # 80000010: 5
        jr      $t0             # 80000014: 6
        nop                     # 80000018: 7; then 80000002: 8
three:  nop                     # 8000001c: 9
        .word   0xffffffff      # 80000020: 10
four:   addiu   $t1, $0, 1      # 80000024: 11
        nop                     # 80000028: 12
        b       four            # 8000002c: 13
        b       four            # 80000030: 14, a branch in the slot of one; from 15 on the processor is idle
