# Data go from processor 1 to processor 2 through a data queue that has room for two. `producer` sends the letters a to f
# and then a 0; while the queue is full it waits. `consumer` writes each letter that it receives, and at the 0 it turns
# the board off. So the console reads "abcdef", in whichever order the processors take their steps.
        .equ    ext_tsk, 3
        .equ    snd_dtq, 33
        .equ    rcv_dtq, 37
        .equ    put_chr, 40
        .equ    ext_ker, 41
        .equ    letters, 1              # the data queue
producer: addiu $a1, $0, 97             # a
send:   addiu   $a0, $0, letters
        addiu   $v0, $0, snd_dtq
        syscall                         # sends $a1; waits while the queue is full
        addiu   $a1, $a1, 1
        slti    $t0, $a1, 103           # up to f
        bnez    $t0, send
        nop
        addu    $a1, $0, $0             # the end of the data
        addiu   $v0, $0, snd_dtq
        syscall
        addiu   $v0, $0, ext_tsk
        syscall
consumer: addiu $a0, $0, letters
        addiu   $v0, $0, rcv_dtq
        syscall                         # receives $v1; waits while the queue is empty
        beqz    $v1, end
        addu    $a0, $0, $v1            # (in the branch's delay slot)
        addiu   $v0, $0, put_chr
        syscall
        b       consumer
        nop
end:    addiu   $v0, $0, ext_ker
        syscall
