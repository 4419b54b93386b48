# A task that holds a spin lock executes BREAK. It is dormant then, and the lock is free: processor 2, which has asked for
# it in four steps, gets it, and writes 0, the answer. Of what was queued for the task nothing is left.
one: addiu $a0, $0, 1
addiu $v0, $0, 1            # act_tsk(1), its own
syscall
addiu $v0, $0, 60           # loc_spn
syscall
break
two: addiu $a0, $0, 1
addiu $v0, $0, 60
syscall
addu $s1, $0, $v0
addiu $v0, $0, 62           # unl_spn
syscall
addiu $a0, $s1, 48          # 0 for E_OK
addiu $v0, $0, 40
syscall
addiu $v0, $0, 3
syscall
