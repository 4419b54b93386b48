# Lines 5 and 3 are raised: line 3 is accepted first, each handler begins with registers of 0, and its put_chr, a task's
# call, is refused. The console shows 35C, which the task writes: the lines in the order of their handlers, C for E_CTX.
main: lui $s0, 0x8000
lbu $a0, 0x1002($s0)        # before this both interrupts
addiu $a0, $a0, 48          # the first line as a digit
addiu $v0, $0, 40
syscall
lbu $a0, 0x1003($s0)
addiu $a0, $a0, 48          # the second line
addiu $v0, $0, 40
syscall
lw $a0, 0x1004($s0)
addiu $a0, $a0, 92          # C (67), if it is E_CTX (-25)
addiu $v0, $0, 40
syscall
handler: lui $t0, 0x8000
lw $t1, 0x1000($t0)
sll $t1, $t1, 8
addu $t1, $t1, $a0          # the line, behind the one before
addu $t1, $t1, $s0          # 0 at each start
sw $t1, 0x1000($t0)
addiu $v0, $0, 40           # put_chr
syscall
sw $v0, 0x1004($t0)
addiu $s0, $0, 1
addiu $v0, $0, 58           # ret_int
syscall
