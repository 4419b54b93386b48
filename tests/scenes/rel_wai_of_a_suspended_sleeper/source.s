# rel_wai of a suspended sleeper leaves it suspended, a second one finds it not waiting, and when it is resumed it goes
# on with E_RLWAI. The console shows 0JR: the two answers, J for E_OBJ, and R for E_RLWAI, which task 1 writes.
one: addiu $v0, $0, 16      # slp_tsk
syscall
addiu $a0, $v0, 131         # R (82), if it is E_RLWAI (-49)
addiu $v0, $0, 40
syscall
two: addiu $a0, $0, 1
addiu $v0, $0, 21           # sus_tsk
syscall
addiu $v0, $0, 20           # rel_wai
syscall
addiu $a0, $v0, 48
addiu $v0, $0, 40
syscall
addiu $a0, $0, 1
addiu $v0, $0, 20
syscall
addiu $a0, $v0, 115         # J (74), if it is E_OBJ (-41)
addiu $v0, $0, 40
syscall
addiu $a0, $0, 1            # before this a step of processor 1, which is idle
addiu $v0, $0, 22           # rsm_tsk
syscall
