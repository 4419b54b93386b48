# Processor 1 takes a spin lock. Processor 2 asks for it in three steps, accepts an interrupt there, and asks again after
# ret_int, until processor 1 has given the lock back. The console shows H0: the H that the handler left in memory, and 0,
# the answer of loc_spn.
one: addiu $a0, $0, 1
addiu $v0, $0, 60           # loc_spn
syscall
nop
addiu $v0, $0, 62           # unl_spn
syscall
end: addiu $v0, $0, 3
syscall
two: lui $s0, 0x8000
addiu $a0, $0, 1
addiu $v0, $0, 60           # loc_spn
spin: syscall
addu $s1, $0, $v0
addiu $v0, $0, 62           # unl_spn
syscall
lw $a0, 0x1000($s0)         # what the handler left
addiu $v0, $0, 40
syscall
addiu $a0, $s1, 48          # 0 for E_OK
addiu $v0, $0, 40
syscall
addiu $v0, $0, 3
syscall
handler: lui $t0, 0x8000
addiu $t1, $0, 72           # H
sw $t1, 0x1000($t0)
addiu $v0, $0, 58           # ret_int
syscall
