# The priority inversion of inversion.s, with a mutex. The configuration says which one.
# Broken: with TA_TPRI (mutex.cfg), as with the semaphore, `low` has its low priority while it has the bus.
# Right: with TA_INHERIT (mutex_inherit.cfg) `low` has the priority of `high` while `high` waits, with TA_CEILING
# (mutex_ceiling.cfg) as long as it has the bus.
# Look for: --exception --ticks 2. With TA_TPRI it is found without a preemption, else there is none.
        .equ    ext_tsk, 3
        .equ    dly_tsk, 23
        .equ    loc_mtx, 77
        .equ    unl_mtx, 80
waits:  .word   0                       # whether high waits for the bus
high:   lui     $s0, %hi(waits)
        addiu   $a0, $0, 0
        addiu   $v0, $0, dly_tsk
        syscall                         # until the first tick
        addiu   $t0, $0, 1
        sw      $t0, %lo(waits)($s0)
        addiu   $a0, $0, 1
        addiu   $v0, $0, loc_mtx
        syscall
        sw      $0, %lo(waits)($s0)
        addiu   $v0, $0, unl_mtx
        syscall
        b       end
        nop
middle: addiu   $a0, $0, 1
        addiu   $v0, $0, dly_tsk
        syscall                         # until the second tick
        lui     $s0, %hi(waits)
        lw      $t0, %lo(waits)($s0)
        tne     $t0, $0
        b       end
        nop
low:    addiu   $a0, $0, 1
        addiu   $v0, $0, loc_mtx
        syscall
        nop                             # uses the bus
        addiu   $v0, $0, unl_mtx
        syscall
end:    addiu   $v0, $0, ext_tsk
        syscall
