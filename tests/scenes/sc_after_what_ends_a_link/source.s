# What comes between an LL and its SC: a call, a refused call, an interrupt, a tick and a store behind the link's
# block, a store into it. The console shows 00010, the answers of the SCs: only ticks and stores elsewhere leave a link.
one: lui $t0, 0x8000
ll $t1, 0x100($t0)
addiu $v0, $0, 9            # get_pid
syscall
sc $t1, 0x100($t0)
addiu $a0, $t1, 48
addiu $v0, $0, 40
syscall
ll $t1, 0x100($t0)
addiu $v0, $0, 99           # no call has this number
syscall
sc $t1, 0x100($t0)
addiu $a0, $t1, 48
addiu $v0, $0, 40
syscall
ll $t1, 0x100($t0)
nop                         # before this an interrupt, whose handler has an LL of the same word
addiu $t1, $0, 5
sc $t1, 0x100($t0)
addiu $a0, $t1, 48
addiu $v0, $0, 40
syscall
ll $t1, 0x100($t0)
addiu $t1, $0, 6            # before this a tick, and processor 2 stores to 0x110
sc $t1, 0x100($t0)
addiu $a0, $t1, 48
addiu $v0, $0, 40
syscall
ll $t1, 0x100($t0)
addiu $t1, $0, 7            # before this processor 2 stores to 0x10f
sc $t1, 0x100($t0)
addiu $a0, $t1, 48
addiu $v0, $0, 40
syscall
handler: lui $t0, 0x8000
ll $t1, 0x100($t0)
addiu $v0, $0, 58
syscall
two: lui $t0, 0x8000
sw $t0, 0x110($t0)
sb $0, 0x10f($t0)
