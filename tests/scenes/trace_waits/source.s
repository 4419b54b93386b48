# Each kind of wait once, and each way in which one ends: by what was waited for, by a timeout, by rel_wai, by ter_tsk;
# a waiting task that is suspended. Task 1 on processor 1 does it to the others, which are on processor 2.
first:  addiu   $a0, $0, 1
        addiu   $a1, $0, 2
        addiu   $v0, $0, 28
        syscall                         # set_flg: task 2 goes on
        addiu   $a0, $0, 3
        addiu   $v0, $0, 20
        syscall                         # rel_wai of task 3
        addiu   $a0, $0, 4
        addiu   $v0, $0, 21
        syscall                         # sus_tsk of task 4, which waits
        addiu   $a0, $0, 1
        addiu   $v0, $0, 37
        syscall                         # rcv_dtq: task 4's wait ends
        addiu   $a0, $0, 4
        addiu   $v0, $0, 22
        syscall                         # rsm_tsk
        addiu   $a0, $0, 5
        addiu   $v0, $0, 4
        syscall                         # ter_tsk of task 5
        addiu   $a0, $0, 6
        addiu   $v0, $0, 18
        syscall                         # wup_tsk
end:    b       end
        nop
second: addiu   $a0, $0, 1
        addiu   $a1, $0, 2
        addiu   $a2, $0, 0
        addiu   $v0, $0, 30
        syscall                         # wai_flg
        b       second
        nop
third:  addiu   $a0, $0, 1
        addiu   $v0, $0, 25
        syscall                         # wai_sem
        b       third
        nop
fourth: addiu   $a0, $0, 1
        addiu   $a1, $0, 7
        addiu   $v0, $0, 33
        syscall                         # snd_dtq
        b       fourth
        nop
fifth:  addiu   $a0, $0, 3
        addiu   $v0, $0, 23
        syscall                         # dly_tsk
        b       fifth
        nop
sixth:  addiu   $v0, $0, 16
        syscall                         # slp_tsk
        b       sixth
        nop
seventh:addiu   $a0, $0, 2
        addiu   $a1, $0, 1
        addiu   $v0, $0, 39
        syscall                         # trcv_dtq: in vain
        b       seventh
        nop
eighth: addiu   $a0, $0, 1
        addiu   $a1, $0, 0
        addiu   $v0, $0, 27
        syscall                         # twai_sem: in vain
        nop
        .word   0               # nop, to the end of RAM
