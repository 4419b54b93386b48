# A journal without events that says the byte order: the little-endian board as it was booted.
        .byteorder little
_start: nop
