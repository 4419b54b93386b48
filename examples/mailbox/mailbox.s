# Messages go from processor 1 to processor 2, and none is copied: `sender` takes a block of a memory pool, writes a
# letter into it and sends its address to a mailbox; `receiver` receives the address, writes the letter to the console
# and gives the block back. The pool has two blocks: while both are out, `sender` waits. The letters are a to f, and at
# the 0 that comes last `receiver` turns the board off.
        .equ    ext_tsk, 3
        .equ    put_chr, 40
        .equ    ext_ker, 41
        .equ    get_mpf, 82
        .equ    rel_mpf, 85
        .equ    snd_mbx, 86
        .equ    rcv_mbx, 88
        .equ    blocks, 1               # the memory pool
        .equ    letters, 1              # the mailbox
sender: addiu   $s0, $0, 97             # a
next:   addiu   $a0, $0, blocks
        addiu   $v0, $0, get_mpf
        syscall                         # takes the block at $v1; waits while none is there
        sb      $s0, 0($v1)
        addiu   $a0, $0, letters
        addu    $a1, $0, $v1
        addiu   $v0, $0, snd_mbx
        syscall                         # sends the block at $a1
        beqz    $s0, sent
        addiu   $s0, $s0, 1             # (in the branch's delay slot)
        slti    $t0, $s0, 103           # up to f
        bnez    $t0, next
        nop
        b       next
        addu    $s0, $0, $0             # the end of the letters
sent:   addiu   $v0, $0, ext_tsk
        syscall
receiver: addiu $a0, $0, letters
        addiu   $v0, $0, rcv_mbx
        syscall                         # receives the block at $v1; waits while none was sent
        lbu     $s0, 0($v1)
        addiu   $a0, $0, blocks
        addu    $a1, $0, $v1
        addiu   $v0, $0, rel_mpf
        syscall                         # gives the block at $a1 back
        beqz    $s0, end
        addu    $a0, $0, $s0
        addiu   $v0, $0, put_chr
        syscall
        b       receiver
        nop
end:    addiu   $v0, $0, ext_ker
        syscall
