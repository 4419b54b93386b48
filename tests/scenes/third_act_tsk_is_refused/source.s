# Of three act_tsk the first starts the task, the second is queued, and the third is refused; so it runs twice.
# The console shows 00Q, the answers, with Q for E_QOVR, and 77, the task's argument at each start.
one: addiu $a0, $0, 2
addiu $v0, $0, 1
syscall
addiu $a0, $v0, 48          # 0 for E_OK
addiu $v0, $0, 40
syscall
addiu $a0, $0, 2
addiu $v0, $0, 1
syscall
addiu $a0, $v0, 48          # 0 for E_OK
addiu $v0, $0, 40
syscall
addiu $a0, $0, 2
addiu $v0, $0, 1
syscall
addiu $a0, $v0, 124         # Q (81), if it is E_QOVR (-43)
addiu $v0, $0, 40
syscall
two: addiu $a0, $a0, 48
addiu $v0, $0, 40
syscall
addiu $v0, $0, 3            # ext_tsk
syscall
