# Eight processors, seven of them idle; tasks by their numbers, whatever order their statements have.
_start: b _start
        nop
