# Processor 1 holds a spin lock, and a task of processor 2 asks for it: it isn't CPU-locked meanwhile. Processor 3 starts a
# more urgent task there, which writes U and ends; then the first one goes on asking. When the lock is free it writes 0.
one: addiu $a0, $0, 1
addiu $v0, $0, 60           # loc_spn
syscall
addiu $v0, $0, 62           # unl_spn
syscall
stop: b stop
nop
two: addiu $a0, $0, 1
addiu $v0, $0, 60
syscall
addu $s1, $0, $v0
addiu $v0, $0, 62
syscall
addiu $a0, $s1, 48          # 0 for E_OK
addiu $v0, $0, 40
syscall
b stop
nop
three: addiu $a0, $0, 4
addiu $v0, $0, 1            # act_tsk(4)
syscall
b stop
nop
four: addiu $a0, $0, 85
addiu $v0, $0, 40
syscall
addiu $v0, $0, 3
syscall
