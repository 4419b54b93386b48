# Processor 1 holds a spin lock, and a task of processor 2 asks for it. Processor 3 ends that task, which holds nothing, so
# the lock stays with processor 1 (3 for E_OBJ of try_spn). Then processor 1 gives it back, and processor 3 gets it.
one: addiu $a0, $0, 1
addiu $v0, $0, 60           # loc_spn
syscall
addiu $v0, $0, 62           # unl_spn
syscall
stop: b stop
nop
two: addiu $a0, $0, 1
addiu $v0, $0, 60
syscall
b stop
nop
three: addiu $a0, $0, 2
addiu $v0, $0, 4            # ter_tsk(2)
syscall
addiu $a0, $v0, 48          # 0 for E_OK
addiu $v0, $0, 40
syscall
addiu $a0, $0, 1
addiu $v0, $0, 61           # try_spn
syscall
addiu $a0, $v0, 92          # 3 for E_OBJ
addiu $v0, $0, 40
syscall
addiu $a0, $0, 1
addiu $v0, $0, 60           # loc_spn
syscall
addu $s1, $0, $v0
addiu $v0, $0, 62
syscall
addiu $a0, $s1, 48
addiu $v0, $0, 40
syscall
b stop
nop
