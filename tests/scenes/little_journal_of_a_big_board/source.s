# A big-endian program, and a journal for little-endian boards.
_start: b       _start
        nop
