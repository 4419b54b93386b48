# can_act answers how many requests are queued, and takes them back: the console shows 100 for a queued one, for none
# after that, and for a dormant task. Task 1 doesn't start again when it ends.
one: addiu $v0, $0, 1       # act_tsk of itself, since $a0 is 0
syscall
addiu $v0, $0, 2            # can_act
syscall
addiu $a0, $v0, 48
addiu $v0, $0, 40
syscall
addu $a0, $0, $0
addiu $v0, $0, 2
syscall
addiu $a0, $v0, 48
addiu $v0, $0, 40
syscall
addiu $a0, $0, 2            # the dormant one
addiu $v0, $0, 2
syscall
addiu $a0, $v0, 48
addiu $v0, $0, 40
syscall
addiu $v0, $0, 3            # ext_tsk
syscall
