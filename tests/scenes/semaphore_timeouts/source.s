# A semaphore of 0 with the timeouts 0 and -2, by pol_sem, and with -1: the console shows TPT, T for E_TMOUT and P for
# E_PAR, and the task still waits after 1,000 ticks.
t: addiu $a0, $0, 1
addiu $a1, $0, 0
addiu $v0, $0, 27           # twai_sem
syscall
addiu $a0, $v0, 134         # T (84), if it is E_TMOUT (-50)
addiu $v0, $0, 40
syscall
addiu $a0, $0, 1
addiu $a1, $0, -2
addiu $v0, $0, 27
syscall
addiu $a0, $v0, 97          # P (80), if it is E_PAR (-17)
addiu $v0, $0, 40
syscall
addiu $a0, $0, 1
addiu $v0, $0, 26           # pol_sem
syscall
addiu $a0, $v0, 134         # T
addiu $v0, $0, 40
syscall
addiu $a0, $0, 1
addiu $a1, $0, -1           # without an end
addiu $v0, $0, 27
syscall
