# A little-endian program, and a journal of version 1, which is for big-endian boards.
        .byteorder little
_start: b       _start
        nop
