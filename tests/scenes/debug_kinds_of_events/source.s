# Which events are stops of a break. The events by their positions: 0 and 1 are steps of processor 1, 2 to 4 of
# processor 2, 5 is a tick, 6 to 8 are steps of processor 1, 9 raises line 3, 10 is a step of processor 2. 11: processor
# 1 accepts the interrupt in the place of the instruction at 80000018, so that isn't executed and 11 is no stop of a
# break there; 12 and 13 are the handler. 14: now the instruction is executed. 15 raises a line that isn't there. 16:
# the load raises an exception, which ends the task. 17 and 18: processor 1 is idle. 19 raises line 3, 20 accepts it, 21
# and 22 are the handler, 23 is idle. 24 to 26: processor 2. 27: there is no processor 3. 28: a tick.
one:    b       over            # 80000000: 0
        addiu   $s0, $s0, 1     # 80000004: 1, in the delay slot
        nop                     # 80000008: never executed
over:   addiu   $v0, $0, 40     # 8000000c: 6
        addiu   $a0, $0, 65     # 80000010: 7
        syscall                 # 80000014: 8
        addiu   $s1, $v0, 2     # 80000018: 14, and not 11
        lw      $t0, 1($0)      # 8000001c: 16
        nop                     # 80000020: never executed
two:    addiu   $s2, $a0, 1     # 80000024: 2, 10, 26
        b       two             # 80000028: 3, 24
        multu   $s2, $sp        # 8000002c: 4, 25
handler: addiu  $v0, $0, 58     # 80000030: 12, 21
        syscall                 # 80000034: 13, 22
