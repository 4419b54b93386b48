# On a little-endian board LWR and LWL load a word from an address that is no multiple of 4: of the bytes ABCDEFGH those
# from B on, the B lowest. The console shows that word from its lowest byte on; then the first byte of a word that was
# stored, which is its lowest, and the lowest of its second halfword.
        .byteorder little
        .equ    put_chr, 40
        .equ    ext_ker, 41
_start: lui     $s0, 0x8000
        lwr     $t0, 0x81($s0)
        lwl     $t0, 0x84($s0)
        addiu   $s1, $0, 4
next:   andi    $a0, $t0, 0xff
        addiu   $v0, $0, put_chr
        syscall
        srl     $t0, $t0, 8
        addiu   $s1, $s1, -1
        bnez    $s1, next
        nop
        lui     $t1, 0x5857
        ori     $t1, $t1, 0x5655
        sw      $t1, 0x88($s0)
        lbu     $a0, 0x88($s0)
        addiu   $v0, $0, put_chr
        syscall
        lhu     $a0, 0x8a($s0)
        andi    $a0, $a0, 0xff
        addiu   $v0, $0, put_chr
        syscall
        addiu   $v0, $0, ext_ker
        syscall
        .org    0x80000080
        .ascii  "ABCDEFGH"
