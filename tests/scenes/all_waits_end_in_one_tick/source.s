# 255 tasks, started from the highest number on, wait for one tick: at the second tick all of them are ready, and write
# their numbers by ascending number. The last one has not ended yet.
t: addu $t0, $a0, $0
   addiu $a0, $0, 1
   addiu $v0, $0, 23
   syscall
   srl $a0, $t0, 4
   addiu $a0, $a0, 65
   addiu $v0, $0, 40
   syscall
   andi $a0, $t0, 15
   addiu $a0, $a0, 65
   addiu $v0, $0, 40
   syscall
   addiu $v0, $0, 3
   syscall
