# A task that is ended from elsewhere, and starts again at once, is no other task: the link of its processor stays.
# The console shows 01, the answers of the SC that the task begins with: 0 without a link, 1 after the restart.
one: lui $s0, 0x8000
addiu $t1, $0, 5
sc $t1, 0x1000($s0)
addiu $a0, $t1, 48          # the SC's answer as a digit
addiu $v0, $0, 40
syscall
ll $t0, 0x1000($s0)
nop                         # before this task 2 ends and restarts the task
two: addiu $a0, $0, 1
addiu $v0, $0, 1            # act_tsk, which is queued
syscall
addiu $v0, $0, 4            # ter_tsk
syscall
