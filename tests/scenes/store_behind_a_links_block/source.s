# A store of another processor to the word behind a link's block leaves the link, and the SC stores.
# The console shows 15: the answer of the SC, and the word that it stored.
one: lui $s0, 0x8000
ll $t0, 0x1000($s0)
addiu $t1, $0, 5            # here processor 2 stores
sc $t1, 0x1000($s0)
addiu $a0, $t1, 48          # the SC's answer as a digit
addiu $v0, $0, 40
syscall
lw $a0, 0x1000($s0)
addiu $a0, $a0, 48          # the word as a digit
addiu $v0, $0, 40
syscall
two: lui $s0, 0x8000
sw $s0, 0x1010($s0)
