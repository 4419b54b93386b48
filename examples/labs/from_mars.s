# What MARS and SPIM do by a syscall, done here: a text and a number are written by functions of your own, and the end is
# ext_ker. `board try examples/labs/from_mars.s` runs it.
        .equ    put_chr, 40
        .equ    ext_ker, 41

main:   lui     $a0, %hi(text)          # la $a0, text
        addiu   $a0, $a0, %lo(text)
        jal     put_text                # li $v0, 4 and syscall
        nop
        lui     $a0, %hi(count)         # lw $a0, count
        lw      $a0, %lo(count)($a0)
        jal     put_number              # li $v0, 1 and syscall
        nop
        addiu   $a0, $0, 10             # li $a0, '\n'
        addiu   $v0, $0, put_chr        # li $v0, 11 and syscall
        syscall
        addiu   $v0, $0, ext_ker        # li $v0, 10 and syscall
        syscall

# put_text($a0: where a text is, which ends with a 0)
put_text: addu  $t0, $a0, $0
letter: lbu     $a0, 0($t0)
        beqz    $a0, written
        addiu   $v0, $0, put_chr        # in the slot
        syscall
        b       letter
        addiu   $t0, $t0, 1             # in the slot
written: jr     $ra
        nop

# put_number($a0: a number with a sign)
put_number: bgez $a0, positive
        addu    $t0, $a0, $0            # in the slot
        addiu   $a0, $0, 45             # a minus
        addiu   $v0, $0, put_chr
        syscall
        subu    $t0, $0, $t0
positive: addiu $t1, $0, 10
        addu    $t2, $sp, $0            # the digits go to the stack, the last one first
digit:  divu    $t0, $t1
        mflo    $t0
        mfhi    $a0
        addiu   $a0, $a0, 48
        addiu   $t2, $t2, -1
        bnez    $t0, digit
        sb      $a0, 0($t2)             # in the slot
next:   lbu     $a0, 0($t2)
        addiu   $v0, $0, put_chr
        syscall
        addiu   $t2, $t2, 1
        bne     $t2, $sp, next
        nop
        jr      $ra
        nop

text:   .asciiz "count: "
        .align  2
count:  .word   -1207
