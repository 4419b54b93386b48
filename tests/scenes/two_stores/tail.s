        .align 8
word:   .word 0
other:  .word 0
lock:   .word 0
node1:  .word 0
        .word 0
node2:  .word 0
        .word 0
