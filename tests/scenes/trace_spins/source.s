# Processor 1 holds a spin lock and branches to itself, processor 2 asks for the lock, processor 3 polls a word that
# nobody writes, and processor 4 counts in a register: it does not spin.
one:    addiu   $a0, $0, 1
        addiu   $v0, $0, 60
        syscall                         # loc_spn(1)
end:    b       end
        nop
two:    addiu   $a0, $0, 1
        addiu   $v0, $0, 60
        syscall                         # loc_spn(1)
        break
three:  lui     $t0, 0x8000
wait:   lw      $t1, 0x100($t0)
        nop
        beq     $t1, $0, wait
        nop
        break
four:   addiu   $t2, $0, 0
more:   addiu   $t2, $t2, 1
        b       more
        nop
