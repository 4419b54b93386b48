# Lines of time handlers aren't raised from outside, whether there is such a handler, as that of line 32, or not.
task:   addiu   $v0, $0, 16
        syscall                         # slp_tsk
handler: addiu  $v0, $0, 58
        syscall                         # ret_int
