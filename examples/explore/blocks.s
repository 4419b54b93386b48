# Blocks of a memory pool that go through a mailbox: `sender` fills one and sends it, `receiver` receives it and gives
# it back. Who has received a block alone has it: `receiver` raises an exception (TNE) if it changes meanwhile.
# Broken: `sender` stores into a block that it has sent already.
# Look for: --exception. Two preemptions: of `sender` before its store, of `receiver` between its loads.
        .equ    ext_tsk, 3
        .equ    get_mpf, 82
        .equ    rel_mpf, 85
        .equ    snd_mbx, 86
        .equ    rcv_mbx, 88
sender: addiu   $s0, $0, 2              # blocks to send
fill:   addiu   $a0, $0, 1
        addiu   $v0, $0, get_mpf
        syscall
        addu    $s1, $0, $v1
        addiu   $a0, $0, 1
        addu    $a1, $0, $s1
        addiu   $v0, $0, snd_mbx
        syscall
        sw      $s0, 0($s1)             # too late: receiver may have it
        addiu   $s0, $s0, -1
        bnez    $s0, fill
        nop
        b       end
        nop
receiver: addiu $s0, $0, 2
take:   addiu   $a0, $0, 1
        addiu   $v0, $0, rcv_mbx
        syscall
        lw      $t0, 0($v1)
        lw      $t1, 0($v1)
        tne     $t0, $t1
        addiu   $a0, $0, 1
        addu    $a1, $0, $v1
        addiu   $v0, $0, rel_mpf
        syscall
        addiu   $s0, $s0, -1
        bnez    $s0, take
        nop
end:    addiu   $v0, $0, ext_tsk
        syscall
