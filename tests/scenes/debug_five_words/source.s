# Five words: three NOPs, a branch back to the first, and a NOP in its delay slot. Each event executes one of them, so
# after p events the next one is at 80000000 + 4 * (p modulo 5). The one at 80000008 is executed by the third event of
# each turn, so the stops of ten events are 2 and 7.
_start: nop                     # 00000000
        nop                     # 00000000
        nop                     # 00000000
        b       _start          # 1000fffc: from the slot four words back
        nop                     # 00000000
