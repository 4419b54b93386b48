# Two alarm handlers are due at tick 1. The first one stops the second, which is pending and runs nevertheless, and has
# it stopped at tick 2.
task:   addiu   $a0, $0, 1
        addiu   $a1, $0, 0
        addiu   $v0, $0, 95
        syscall                         # sta_alm(1, 0)
        addiu   $a0, $0, 2
        addiu   $v0, $0, 95
        syscall                         # sta_alm(2, 0)
        addiu   $v0, $0, 3
        syscall                         # ext_tsk
first:  addiu   $v0, $0, 98             # ($a0 is the other handler)
        syscall                         # istp_alm
        addiu   $v0, $0, 58
        syscall                         # ret_int
second: addiu   $v0, $0, 58
        syscall                         # ret_int
