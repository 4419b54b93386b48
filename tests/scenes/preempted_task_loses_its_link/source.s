# Task 3 preempts task 1 between its LL and its SC and ends: the link is gone, though nobody stored.
# The console shows 0, the answer of the SC.
one: lui $s0, 0x8000
ll $t0, 0x1000($s0)
addiu $t1, $0, 5            # before this task 3 runs
sc $t1, 0x1000($s0)
addiu $a0, $t1, 48          # the SC's answer as a digit
addiu $v0, $0, 40
syscall
two: addiu $a0, $0, 3
addiu $v0, $0, 1            # act_tsk
syscall
three: addiu $v0, $0, 3     # ext_tsk
syscall
