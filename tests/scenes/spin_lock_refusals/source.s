# What the calls of spin locks refuse, as letters: C is E_CTX, 3 E_OBJ, @ E_ILUSE, J E_ID, 2 E_NOEXS, a backslash E_OK.
# While processor 1 holds lock 1, processor 2 writes the answers of try_spn(1), unl_spn(1), loc_spn(0), loc_spn(2),
# try_spn(256), and of unl_spn(1) and loc_spn(1) in a CPU-locked task, and of try_spn(1) in a handler: 3@J2J@CC. Then
# processor 1 writes those of loc_spn(1), and holding it of loc_spn(1), try_spn(1), unl_cpu and loc_cpu, of unl_spn(1)
# and of another unl_spn(1).
one: addiu $a0, $0, 1
addiu $v0, $0, 60           # loc_spn
syscall
addu $s1, $0, $v0
addiu $v0, $0, 60
syscall
addu $s2, $0, $v0
addiu $v0, $0, 61           # try_spn
syscall
addu $s3, $0, $v0
addiu $v0, $0, 15           # unl_cpu
syscall
addu $s4, $0, $v0
addiu $v0, $0, 14           # loc_cpu
syscall
addu $s5, $0, $v0
addiu $v0, $0, 62           # unl_spn; before this processor 2 has its steps
syscall
addu $s6, $0, $v0
addiu $v0, $0, 62
syscall
addu $s7, $0, $v0
jal say
addu $v0, $0, $s1
jal say
addu $v0, $0, $s2
jal say
addu $v0, $0, $s3
jal say
addu $v0, $0, $s4
jal say
addu $v0, $0, $s5
jal say
addu $v0, $0, $s6
jal say
addu $v0, $0, $s7
stop: b stop
nop
say: addiu $a0, $v0, 92
addiu $v0, $0, 40
syscall
jr $ra
nop
two: addiu $a0, $0, 1
addiu $v0, $0, 61
syscall
jal say
nop
addiu $a0, $0, 1
addiu $v0, $0, 62
syscall
jal say
nop
addu $a0, $0, $0
addiu $v0, $0, 60
syscall
jal say
nop
addiu $a0, $0, 2
addiu $v0, $0, 60
syscall
jal say
nop
addiu $a0, $0, 256
addiu $v0, $0, 61
syscall
jal say
nop
addiu $v0, $0, 14           # loc_cpu
syscall
addiu $a0, $0, 1
addiu $v0, $0, 62
syscall
addu $s1, $0, $v0
addiu $v0, $0, 60
syscall
addu $s2, $0, $v0
addiu $v0, $0, 15           # unl_cpu
syscall
jal say
addu $v0, $0, $s1
jal say
addu $v0, $0, $s2
lui $s0, 0x8000
jal say
lw $v0, 0x1000($s0)         # the handler's answer
b stop
nop
handler: lui $t0, 0x8000
addiu $a0, $0, 1
addiu $v0, $0, 61
syscall
sw $v0, 0x1000($t0)
addiu $v0, $0, 58           # ret_int
syscall
