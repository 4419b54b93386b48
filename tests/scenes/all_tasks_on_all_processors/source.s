# 255 tasks on eight processors write their numbers, in letters of 0 to 15 each, and end: by priority, and equals as
# they stand in the configuration.
t: addu $t0, $a0, $0
   srl $a0, $t0, 4
   addiu $a0, $a0, 65
   addiu $v0, $0, 40
   syscall
   andi $a0, $t0, 15
   addiu $a0, $a0, 65
   addiu $v0, $0, 40
   syscall
   addiu $v0, $0, 3
   syscall
