# Lab 1, solved: the sum of five numbers, 189.
        .equ    put_chr, 40
        .equ    ext_ker, 41

main:   lui     $a0, %hi(numbers)
        addiu   $a0, $a0, %lo(numbers)
        jal     sum
        addiu   $a1, $0, 5              # in the slot
        jal     print
        move    $a0, $v0                # in the slot
        addiu   $v0, $0, ext_ker
        syscall

# sum($a0: where the numbers are, $a1: how many) = $v0
sum:    beqz    $a1, done
        move    $v0, $0                 # in the slot
more:   lw      $t0, 0($a0)
        addiu   $a0, $a0, 4
        addiu   $a1, $a1, -1
        bnez    $a1, more
        addu    $v0, $v0, $t0           # in the slot
done:   jr      $ra
        nop

# print($a0: a number without a sign): writes it in decimal, first all digits but the last by a call of itself
print:  addiu   $sp, $sp, -8
        sw      $ra, 4($sp)
        sw      $s0, 0($sp)
        addiu   $t1, $0, 10
        divu    $a0, $t1
        mflo    $a0                     # all digits but the last
        beqz    $a0, last
        mfhi    $s0                     # in the slot: the last one
        jal     print
        nop
last:   addiu   $a0, $s0, 48
        addiu   $v0, $0, put_chr
        syscall
        lw      $s0, 0($sp)
        lw      $ra, 4($sp)
        jr      $ra
        addiu   $sp, $sp, 8             # in the slot

        .align  2
numbers: .word  17, 4, 100, 60, 8
