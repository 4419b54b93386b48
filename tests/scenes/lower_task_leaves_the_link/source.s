# A task of lower priority becomes ready between the LL and the SC of task 1, which runs on and keeps its link.
# The console shows 1, the answer of the SC.
one: lui $s0, 0x8000
ll $t0, 0x1000($s0)
addiu $t1, $0, 5            # before this task 3 becomes ready
sc $t1, 0x1000($s0)
addiu $a0, $t1, 48          # the SC's answer as a digit
addiu $v0, $0, 40
syscall
two: addiu $a0, $0, 3
addiu $v0, $0, 1            # act_tsk
syscall
three: addiu $v0, $0, 3
syscall
