# A task that has disabled dispatching may take a spin lock. unl_spn ends its CPU lock, and dispatching stays disabled: the
# more urgent task that it starts then waits for ena_dsp. The console shows 12: the first task wrote before the other.
one: addiu $v0, $0, 12      # dis_dsp
syscall
addiu $a0, $0, 1
addiu $v0, $0, 60           # loc_spn
syscall
addiu $v0, $0, 62           # unl_spn
syscall
addiu $a0, $0, 2
addiu $v0, $0, 1            # act_tsk(2)
syscall
addiu $a0, $0, 49
addiu $v0, $0, 40           # put_chr
syscall
addiu $v0, $0, 13           # ena_dsp
syscall
stop: b stop
nop
two: addiu $a0, $0, 50
addiu $v0, $0, 40
syscall
addiu $v0, $0, 3            # ext_tsk
syscall
