# Two tasks of a little-endian board: a load that isn't aligned, and a word that is no instruction.
.byteorder little
one:    lui   $t0, 0x8000
        lw    $t1, 2($t0)
two:    .word 0x7c0a5420
