# Task 1 counts from 65,536 down to 0, in 196,610 steps, and stores each number. An interrupt that is raised after
# 100,000 of them is accepted at the next step, and its handler adds 1 to another word. At last task 1 writes the
# character that many after A, so B, and turns the board off.
_start: lui $s0, 0x8000
lui $t0, 1
again: addiu $t0, $t0, -1
bne $t0, $0, again
sw $t0, 0x200($s0)
lw $a0, 0x204($s0)
addiu $v0, $0, 40           # put_chr
addiu $a0, $a0, 65
syscall
addiu $v0, $0, 41           # ext_ker
syscall
handler: lui $t1, 0x8000
lw $t0, 0x204($t1)
addiu $t0, $t0, 1
sw $t0, 0x204($t1)
addiu $v0, $0, 58           # ret_int
syscall
