# get_pid answers the caller's processor, and get_tid the caller.
# The console shows 27: task 7 runs on processor 2.
two: addiu $v0, $0, 9
syscall
addiu $a0, $v1, 48
addiu $v0, $0, 40
syscall
addiu $v0, $0, 11
syscall
addiu $a0, $v1, 48
addiu $v0, $0, 40
syscall
