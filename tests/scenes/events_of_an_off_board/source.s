# ext_ker turns the board off: ticks and a step behind it are counted among the events, and change nothing, as tick 0
# and pc show. The journal has neighbours with the same event.
_start: addiu $v0, $0, 40
        addiu $a0, $0, 72
        syscall
        addiu $v0, $0, 41
        syscall
        nop
