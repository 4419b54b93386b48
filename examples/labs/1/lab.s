# Lab 1. It should write the sum of five numbers: 189. It is written as for a machine without delay slots, and with one
# mistake more.
        .equ    put_chr, 40
        .equ    ext_ker, 41

main:   lui     $a0, %hi(numbers)
        addiu   $a0, $a0, %lo(numbers)
        addiu   $a1, $0, 5
        jal     sum
        move    $a0, $v0
        jal     print
        addiu   $v0, $0, ext_ker
        syscall

# sum($a0: where the numbers are, $a1: how many) = $v0
sum:    move    $v0, $0
more:   beqz    $a1, done
        lw      $t0, 0($a0)
        addu    $v0, $v0, $t0
        addiu   $a0, $a0, 4
        addiu   $a1, $a1, -1
        b       more
done:   jr      $ra

# print($a0: a number without a sign): writes it in decimal, first all digits but the last by a call of itself
print:  addiu   $t1, $0, 10
        divu    $a0, $t1
        mflo    $a0                     # all digits but the last
        mfhi    $s0                     # the last one
        beqz    $a0, last
        jal     print
last:   addiu   $a0, $s0, 48
        addiu   $v0, $0, put_chr
        syscall
        jr      $ra

        .align  2
numbers: .word  17, 4, 100, 60, 8
