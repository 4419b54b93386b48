# A task sends messages, and receives them by their priorities; then it waits for one, and a handler sends it.
first:  addiu   $a0, $0, 1
        addiu   $v0, $0, 89
        syscall                         # prcv_mbx(1): none is there
        addiu   $a1, $0, 64
        addiu   $a2, $0, 2
        addiu   $v0, $0, 86
        syscall                         # snd_mbx(1, 64, 2)
        addiu   $a1, $0, 72
        addiu   $a2, $0, 1
        addiu   $v0, $0, 86
        syscall                         # snd_mbx(1, 72, 1)
        addiu   $a2, $0, 3
        addiu   $v0, $0, 86
        syscall                         # snd_mbx(1, 72, 3): no such priority
        addiu   $v0, $0, 88
        syscall                         # rcv_mbx(1)
        addiu   $a1, $0, 1
        addiu   $v0, $0, 92
        syscall                         # ref_mbx(1, 1): the next message
        addiu   $a1, $0, 5
        addiu   $v0, $0, 90
        syscall                         # trcv_mbx(1, 5)
        addiu   $v0, $0, 90
        syscall                         # trcv_mbx(1, 5): it waits
        addiu   $v0, $0, 3
        syscall                         # ext_tsk
handler: addiu  $a0, $0, 1
        addiu   $a1, $0, 80
        addiu   $a2, $0, 1
        addiu   $v0, $0, 87
        syscall                         # isnd_mbx(1, 80, 1)
        addiu   $v0, $0, 58
        syscall                         # ret_int
