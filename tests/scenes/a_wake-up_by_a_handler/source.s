# Task 1 sleeps until the handler of line 4 wakes it. It then writes a letter and ends.
task:   addiu   $v0, $0, 16
        syscall                         # slp_tsk()
        addiu   $a0, $0, 87
        addiu   $v0, $0, 40
        syscall                         # put_chr('W')
        addiu   $v0, $0, 3
        syscall                         # ext_tsk()
handler: addiu  $a0, $0, 1
        addiu   $v0, $0, 49
        syscall                         # iwup_tsk(1)
        addiu   $v0, $0, 58
        syscall                         # ret_int()
