# A journal of 12,884,901,885 events, more than 32 bits hold: what is looked at is near its start.
_start: nop
        nop
        nop
        b       _start
        nop
