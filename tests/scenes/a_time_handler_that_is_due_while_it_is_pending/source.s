# A cyclic handler is due at ticks 1, 2 and 3, and its processor is CPU-locked until then: it runs once.
task:   addiu   $v0, $0, 14
        syscall                         # loc_cpu
        addiu   $v0, $0, 15
        syscall                         # unl_cpu
        addiu   $v0, $0, 3
        syscall                         # ext_tsk
handler: addiu  $v0, $0, 58
        syscall                         # ret_int
