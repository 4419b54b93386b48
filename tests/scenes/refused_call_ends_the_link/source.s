# A call that is refused ends the caller's link too.
# The console shows F0: F for E_RSFN, the call's answer, and 0, the answer of the SC behind it.
one: lui $s0, 0x8000
ll $t0, 0x1000($s0)
addiu $v0, $0, 99           # no call has this number
syscall
addiu $t1, $0, 5
sc $t1, 0x1000($s0)
addiu $a0, $v0, 80          # F (70), if it is E_RSFN (-10)
addiu $v0, $0, 40
syscall
addiu $a0, $t1, 48          # the SC's answer as a digit
addiu $v0, $0, 40
syscall
