# A second act_tsk is queued while the task runs: when the task ends it starts again, from its beginning with registers
# of 0 and its argument. The console shows 77, its argument (and a register) at each start.
one: addiu $a0, $0, 2
addiu $v0, $0, 1            # act_tsk
syscall
addiu $v0, $0, 1
syscall
two: addu $a0, $a0, $s0     # $s0 is 0 at a start
addiu $s0, $0, 1
addiu $a0, $a0, 48
addiu $v0, $0, 40
syscall
addiu $v0, $0, 3            # ext_tsk
syscall
