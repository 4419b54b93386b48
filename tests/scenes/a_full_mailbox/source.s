# A task sends messages to a mailbox until it is full, which takes 256. When it has received one, there is room again.
main:   addiu   $s0, $0, 0              # the address of the next message
more:   addiu   $a0, $0, 1
        addu    $a1, $0, $s0
        addiu   $v0, $0, 86
        syscall                         # snd_mbx(1, $s0)
        beqz    $v0, more
        addiu   $s0, $s0, 1             # (in the branch's delay slot)
        addiu   $v0, $0, 88
        syscall                         # rcv_mbx(1): the first of all
        addiu   $v0, $0, 86
        syscall                         # snd_mbx(1, the one that was refused)
        addiu   $v0, $0, 86
        syscall                         # and once more
        addiu   $a1, $0, 1
        addiu   $v0, $0, 92
        syscall                         # ref_mbx(1, 1): the second of all is received next
        addiu   $v0, $0, 3
        syscall
