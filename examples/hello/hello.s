# Writes "Hi" and a newline by put_chr (service 40), and turns the board off by ext_ker (41).
        .equ    put_chr, 40
        .equ    ext_ker, 41
_start: lui     $s0, %hi(text)
        addiu   $s0, $s0, %lo(text)
next:   lbu     $a0, ($s0)
        beqz    $a0, done
        addiu   $v0, $0, put_chr    # in the slot
        syscall
        b       next
        addiu   $s0, $s0, 1         # in the slot
done:   addiu   $v0, $0, ext_ker
        syscall
text:   .asciiz "Hi\n"
