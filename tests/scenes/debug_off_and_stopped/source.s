# A processor that is stopped executes nothing, so that its steps (5 and 6) are no stops, and it has no registers. On a
# board that is off nothing happens, so that its events (9 to 12) are no stops, also where the next instruction of a
# processor is at a break; it shows the registers as they were when it went off.
one:    b       one             # 80000000: 0
        nop                     # 80000004: 1
handler: break                  # 80000008: 4, behind the raised line (2) and its acceptance (3); processor 1 is stopped
two:    addiu   $v0, $0, 41     # 8000000c: 7
        syscall                 # 80000010: 8, ext_ker
        nop                     # 80000014: never executed
