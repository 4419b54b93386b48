# fsnd_dtq of 9 to a queue that is full of 7 and 8 drops the 7; of a queue that stores none it is refused.
# The console shows 89I: what is received, and I for E_ILUSE.
t: addiu $a0, $0, 1
addiu $a1, $0, 7
addiu $v0, $0, 33           # snd_dtq
syscall
addiu $a1, $0, 8
addiu $v0, $0, 33
syscall
addiu $a1, $0, 9
addiu $v0, $0, 36           # fsnd_dtq
syscall
addiu $v0, $0, 37           # rcv_dtq
syscall
addiu $a0, $v1, 48
addiu $v0, $0, 40
syscall
addiu $a0, $0, 1
addiu $v0, $0, 37
syscall
addiu $a0, $v1, 48
addiu $v0, $0, 40
syscall
addiu $a0, $0, 2            # the queue that stores none
addiu $v0, $0, 36
syscall
addiu $a0, $v0, 101         # I (73), if it is E_ILUSE (-28)
addiu $v0, $0, 40
syscall
