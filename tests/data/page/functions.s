# What a page says of functions: main calls length, which keeps $s0 on its stack and calls next, and spoils, which
# changes $s0 and doesn't keep it. So main's own $s0 is another one behind that.
        .equ    put_chr, 40
        .equ    ext_ker, 41
main:   lui     $s1, %hi(text)
        addiu   $s0, $0, 65             # 'A', kept over both calls
        jal     length
        addiu   $a0, $s1, %lo(text)
        bne     $v0, $0, some           # taken: there are letters
        nop
        addiu   $v0, $0, 7
some:   lui     $t0, %hi(count)
        sw      $v0, %lo(count)($t0)
        jal     spoils
        nop
        addiu   $a0, $s0, 0
        addiu   $v0, $0, put_chr
        syscall
        addiu   $v0, $0, ext_ker
        syscall

length: addiu   $sp, $sp, -8
        sw      $ra, 4($sp)
        sw      $s0, 0($sp)
        addiu   $s0, $0, 0
again:  jal     next
        nop
        beq     $v1, $0, done
        addiu   $a0, $a0, 1
        beq     $0, $0, again
        addiu   $s0, $s0, 1
done:   addiu   $v0, $s0, 0
        lw      $s0, 0($sp)
        lw      $ra, 4($sp)
        jr      $ra
        addiu   $sp, $sp, 8

next:   jr      $ra
        lbu     $v1, 0($a0)

spoils: addiu   $s0, $0, 66
        jr      $ra
        nop

        .align  2
count:  .word   0
zeros:  .word   0, 0
text:   .ascii  "hey\0"
