# A task that holds a spin lock and for which an activation is queued calls ext_tsk. It starts anew, isn't CPU-locked, and
# the lock is free: the task writes its dot, and finds the lock held by processor 2 (3 for E_OBJ), which has asked for it
# before.
one: addiu $a0, $0, 46
addiu $v0, $0, 40           # put_chr
syscall
addiu $a0, $0, 1
addiu $v0, $0, 61           # try_spn
syscall
bnez $v0, held
nop
addiu $v0, $0, 3            # ext_tsk
syscall
held: addiu $a0, $v0, 92    # 3 for E_OBJ
addiu $v0, $0, 40
syscall
addiu $v0, $0, 3
syscall
two: addiu $a0, $0, 1
addiu $v0, $0, 1            # act_tsk(1)
syscall
addiu $v0, $0, 60           # loc_spn
syscall
end: b end
nop
