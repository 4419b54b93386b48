# A cyclic handler with TA_STA, a time of 2 and a phase of 1: it is due at ticks 2, 4 and 6.
task:   addiu   $v0, $0, 16
        syscall                         # slp_tsk
handler: addiu  $v0, $0, 58
        syscall                         # ret_int
