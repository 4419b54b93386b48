# Lab 2, solved: five tasks, each of which writes its number, and a sixth, which turns the board off.
        .equ    ext_tsk, 3
        .equ    put_chr, 40
        .equ    ext_ker, 41
        .equ    first, 48

# Task 1: writes `first`, `first`+1 and so on into its four cells. The character is what the second cell has.
fill:   lui     $t0, %hi(cells)
        addiu   $t0, $t0, %lo(cells)
        addu    $t1, $0, $0
cell:   addiu   $t2, $t1, first
        sw      $t2, 0($t0)
        addiu   $t1, $t1, 1
        addiu   $t3, $0, 4
        bne     $t1, $t3, cell
        addiu   $t0, $t0, 4             # in the slot
        b       tell
        lw      $a0, -12($t0)           # in the slot

# Task 2: a record has a byte, its kind, and at once a word. Of kind 1 the word is the character.
unpack: lui     $s0, %hi(record)
        addiu   $s0, $s0, %lo(record)
        lbu     $t0, 0($s0)
        addiu   $t1, $0, 1
        lwl     $a0, 1($s0)
        beq     $t0, $t1, tell
        lwr     $a0, 4($s0)             # in the slot
        addiu   $v0, $0, ext_tsk
        syscall

# Task 3: the average of the values in a table, which ends by a 0, is the character.
average: lui    $t0, %hi(values)
        addiu   $t0, $t0, %lo(values)
        addu    $t1, $0, $0             # how many there are
        addu    $t2, $0, $0             # their sum
value:  lw      $t3, 0($t0)
        beqz    $t3, divide
        addiu   $t0, $t0, 4             # in the slot
        addiu   $t1, $t1, 1
        b       value
        addu    $t2, $t2, $t3           # in the slot
divide: teq     $t1, $0, 7              # so compilers guard a division
        divu    $t2, $t1
        b       tell
        mflo    $a0                     # in the slot

# Task 4: the sum of two readings, which have no sign; its upper bits are the character.
add:    lui     $t2, %hi(readings)
        lw      $t0, %lo(readings)($t2)
        lw      $t1, %lo(readings+4)($t2)
        addu    $t0, $t0, $t1
        b       tell
        srl     $a0, $t0, 26            # in the slot

# Task 5.
last:   addiu   $a0, $0, 53
        addiu   $v0, $0, put_chr
        syscall
        addiu   $v0, $0, ext_tsk
        syscall

# Where tasks 1 to 4 end: it writes a character.
tell:   addiu   $v0, $0, put_chr
        syscall
        addiu   $v0, $0, ext_tsk
        syscall

# Task 6.
off:    addiu   $v0, $0, ext_ker
        syscall

        .align  2
cells:  .word   0, 0, 0, 0
values: .word   50, 51, 52, 0
readings: .word 0x70000000, 0x60000000
record: .byte   1, 0, 0, 0, 50
