# Only one task may wait for the flag: while task 1 does, task 2 may not even poll for a bit that is set.
# The console shows I for E_ILUSE.
one: addiu $a0, $0, 1
addiu $a1, $0, 1            # bit 0 isn't set
addiu $a2, $0, 0
addiu $v0, $0, 30           # wai_flg
syscall
two: addiu $a0, $0, 1
addiu $a1, $0, 2            # bit 1 is
addiu $a2, $0, 0
addiu $v0, $0, 31           # pol_flg
syscall
addiu $a0, $v0, 101         # I (73), if it is E_ILUSE (-28)
addiu $v0, $0, 40
syscall
