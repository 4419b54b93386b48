# Line 5 is raised twice for processor 2, which is idle: an exception in the first handler stops the processor, so that
# no second one begins. The console shows 5, the sum of the lines that handlers found in $a0; task 1 writes it.
handler: lui $s0, 0x8000
lw $t0, 0x1000($s0)
addu $t0, $t0, $a0
sw $t0, 0x1000($s0)
break
one: lui $s0, 0x8000
lw $a0, 0x1000($s0)
addiu $a0, $a0, 48
addiu $v0, $0, 40
syscall
