# A priority inversion: `low` has the bus, `high` waits for it, and `middle`, which doesn't need it, keeps `low` from
# giving it back. `middle` raises an exception (TNE) if it goes on while `high` waits.
# Broken: `low` has its low priority while it has the bus.
# Look for: --exception --ticks 2. Found without a preemption, by the ticks at which `high` and `middle` begin.
        .equ    ext_tsk, 3
        .equ    dly_tsk, 23
        .equ    sig_sem, 24
        .equ    wai_sem, 25
waits:  .word   0                       # whether high waits for the bus
high:   lui     $s0, %hi(waits)
        addiu   $a0, $0, 0
        addiu   $v0, $0, dly_tsk
        syscall                         # until the first tick
        addiu   $t0, $0, 1
        sw      $t0, %lo(waits)($s0)
        addiu   $a0, $0, 1
        addiu   $v0, $0, wai_sem
        syscall
        sw      $0, %lo(waits)($s0)
        addiu   $v0, $0, sig_sem
        syscall
        b       end
        nop
middle: addiu   $a0, $0, 1
        addiu   $v0, $0, dly_tsk
        syscall                         # until the second tick
        lui     $s0, %hi(waits)
        lw      $t0, %lo(waits)($s0)
        tne     $t0, $0
        b       end
        nop
low:    addiu   $a0, $0, 1
        addiu   $v0, $0, wai_sem
        syscall
        nop                             # uses the bus
        addiu   $v0, $0, sig_sem
        syscall
end:    addiu   $v0, $0, ext_tsk
        syscall
