# A handler calls iget_tid, irot_rdq, imact_tsk, iwup_tsk and irel_wai, and keeps the answers, which task 1 writes when
# it is woken: 0PDP000J, with P for E_PAR, D for E_ID, J for E_OBJ. Task 2 then writes R for E_RLWAI, and task 3 runs.
handler: lui $s0, 0x8000
addiu $v0, $0, 56           # iget_tid: no task runs
syscall
addiu $t0, $v1, 48
sb $t0, 0x1000($s0)
addu $a0, $0, $0            # irot_rdq of priority 0
addiu $v0, $0, 55
syscall
addiu $t0, $v0, 97          # P (80), if it is E_PAR (-17)
sb $t0, 0x1001($s0)
addiu $a1, $0, 1            # imact_tsk of task 0
addiu $v0, $0, 57
syscall
addiu $t0, $v0, 86          # D (68), if it is E_ID (-18)
sb $t0, 0x1002($s0)
addiu $a0, $0, 3            # imact_tsk on processor 3 of two
addiu $a1, $0, 3
addiu $v0, $0, 57
syscall
addiu $t0, $v0, 97          # P
sb $t0, 0x1003($s0)
addiu $a1, $0, 2            # imact_tsk of task 3 on processor 2
addiu $v0, $0, 57
syscall
addiu $t0, $v0, 48          # 0 for E_OK
sb $t0, 0x1004($s0)
addiu $a0, $0, 1            # iwup_tsk of task 1
addiu $v0, $0, 49
syscall
addiu $t0, $v0, 48
sb $t0, 0x1005($s0)
addiu $a0, $0, 2            # irel_wai of task 2
addiu $v0, $0, 50
syscall
addiu $t0, $v0, 48
sb $t0, 0x1006($s0)
addiu $v0, $0, 50           # once more: it doesn't wait now
syscall
addiu $t0, $v0, 115         # J (74), if it is E_OBJ (-41)
sb $t0, 0x1007($s0)
addiu $v0, $0, 58
syscall
one: addiu $v0, $0, 16      # slp_tsk
syscall
lui $s0, 0x8000
next: lbu $a0, 0x1000($s0)
beqz $a0, two
addiu $v0, $0, 40
syscall
b next
addiu $s0, $s0, 1
two: addiu $v0, $0, 16
syscall
addiu $a0, $v0, 131         # R (82), if it is E_RLWAI (-49)
addiu $v0, $0, 40
syscall
three: b three
nop
