# 108 runs of M = 4,294,967,295 events, of which eleven do anything: the others are passed over, in a moment and not
# in hours. From 0 on they are of processor 0 and line 9 in turn, from 100 M on of processor 3: none of them is there.
# 101 M: task 1, which sleeps from its second step on. 102 M: line 0 is raised, and then pending. 103 M: processor 1
# accepts it; the handler stores a byte at 103 M + 3, and stops the processor with the next event. 104 M: line 0 is
# pending again, for good. 105 M: task 2, which turns the board off at its second step. From 106 M on ticks and steps
# of a board that is off.
one:    addiu   $v0, $0, 16     # 80000000
        syscall                 # 80000004: slp_tsk
handler: lui    $t0, 0x8000     # 80000008
        addiu   $t1, $0, 7      # 8000000c
        sb      $t1, 0x40($t0)  # 80000010
        break                   # 80000014
two:    addiu   $v0, $0, 41     # 80000018
        syscall                 # 8000001c: ext_ker
