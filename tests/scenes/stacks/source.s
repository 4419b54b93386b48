# Stacks lie below one another from the end of RAM down, of sizes rounded up to 16, or as placed (tasks 3 and 5), with
# the end rounded down to 8. The console shows the last five hexadecimal digits of each task's $sp.
t: addiu $s0, $0, 20
next: addiu $s0, $s0, -4    # how many bits stand behind the next digit
srlv $t0, $sp, $s0
andi $t0, $t0, 15
lui $t1, %hi(digits)
addu $t1, $t1, $t0
lbu $a0, %lo(digits)($t1)
addiu $v0, $0, 40
syscall
bgtz $s0, next
nop
addiu $a0, $0, 10           # a newline
addiu $v0, $0, 40
syscall
addiu $v0, $0, 3            # ext_tsk
syscall
digits: .ascii "0123456789abcdef"
