        .align 8
word:   .word 0
other:  .word 0
lock:   .word 0
node:   .word 0
