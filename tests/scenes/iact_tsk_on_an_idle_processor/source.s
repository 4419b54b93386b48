# A handler of an idle processor starts a task there, which runs after ret_int and writes the answers that the handler
# kept: 0D00, of iget_tid, of iact_tsk of task 0 (D for E_ID) and of task 1, and of iget_tid again: none runs yet.
handler: lui $s0, 0x8000
addiu $v0, $0, 56           # iget_tid
syscall
addiu $t0, $v1, 48
sb $t0, 0x1000($s0)
addiu $v0, $0, 48           # iact_tsk of $a0, the line, which is 0
syscall
addiu $t0, $v0, 86          # D (68), if it is E_ID (-18)
sb $t0, 0x1001($s0)
addiu $a0, $0, 1
addiu $v0, $0, 48
syscall
addiu $t0, $v0, 48          # 0 for E_OK
sb $t0, 0x1002($s0)
addiu $v0, $0, 56
syscall
addiu $t0, $v1, 48
sb $t0, 0x1003($s0)
addiu $v0, $0, 58
syscall
one: lui $s0, 0x8000
next: lbu $a0, 0x1000($s0)
beqz $a0, end
addiu $v0, $0, 40
syscall
b next
addiu $s0, $s0, 1
end: b end
nop
