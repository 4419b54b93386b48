# A CPU-locked task may call loc_cpu, but not act_tsk and dis_dsp, and no interrupt is accepted until it calls unl_cpu.
# The console shows 0CC, the answers, C for E_CTX, and 01: how many handlers had run before unl_cpu and had run after.
one: addiu $v0, $0, 14      # loc_cpu
syscall
addiu $v0, $0, 14           # before this an interrupt line is raised
syscall
addu $s0, $0, $v0
addiu $a0, $0, 1
addiu $v0, $0, 1            # act_tsk
syscall
addu $s1, $0, $v0
addiu $v0, $0, 12           # dis_dsp
syscall
addu $s2, $0, $v0
lui $s3, 0x8000
lw $s4, 0x1000($s3)
addiu $v0, $0, 15           # unl_cpu
syscall
addiu $a0, $s0, 48          # 0 for E_OK
addiu $v0, $0, 40
syscall
addiu $a0, $s1, 92          # C (67), if it is E_CTX (-25)
addiu $v0, $0, 40
syscall
addiu $a0, $s2, 92          # C
addiu $v0, $0, 40
syscall
addiu $a0, $s4, 48
addiu $v0, $0, 40
syscall
lw $a0, 0x1000($s3)
addiu $a0, $a0, 48
addiu $v0, $0, 40
syscall
handler: lui $t0, 0x8000
lw $t1, 0x1000($t0)
addiu $t1, $t1, 1
sw $t1, 0x1000($t0)
addiu $v0, $0, 58
syscall
