# Lab 4. The producer sends the letters of `items` through a data queue, one after the other, and then the 0 at their end.
# The consumer writes each letter that it receives, and at the 0 it turns the board off. Whatever the order of their
# steps, it should write "abcd". Neither waits: what the calls answer isn't looked at.
        .equ    ext_tsk, 3
        .equ    psnd_dtq, 34
        .equ    prcv_dtq, 38
        .equ    put_chr, 40
        .equ    ext_ker, 41
        .equ    queue, 1                # the data queue

producer: lui   $s0, %hi(items)
        addiu   $s0, $s0, %lo(items)
send:   lw      $a1, 0($s0)
        addiu   $a0, $0, queue
        addiu   $v0, $0, psnd_dtq
        syscall                         # sends $a1
        bnez    $a1, send
        addiu   $s0, $s0, 4             # in the slot
        addiu   $v0, $0, ext_tsk
        syscall

consumer: addiu $a0, $0, queue
        addiu   $v0, $0, prcv_dtq
        syscall                         # receives $v1
        beqz    $v1, end
        move    $a0, $v1                # in the slot
        addiu   $v0, $0, put_chr
        syscall
        b       consumer
        nop
end:    addiu   $v0, $0, ext_ker
        syscall

        .align  2
items:  .word   97, 98, 99, 100, 0
