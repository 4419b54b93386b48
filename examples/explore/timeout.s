# Two tasks take a semaphore; the second one waits for a tick at most.
# Broken: it doesn't look whether it got the semaphore.
# Look for: --word inside=0..1 --ticks 2. Found with 1 preemption and 2 ticks, while the first one is inside.
        .equ    ext_tsk, 3
        .equ    sig_sem, 24
        .equ    wai_sem, 25
        .equ    twai_sem, 27
inside: .word   0
first:  addiu   $a0, $0, 1
        addiu   $v0, $0, wai_sem
        syscall
        b       enter
        nop
second: addiu   $a0, $0, 1
        addiu   $a1, $0, 1
        addiu   $v0, $0, twai_sem
        syscall
enter:  lui     $s0, %hi(inside)
        lw      $t0, %lo(inside)($s0)
        addiu   $t0, $t0, 1
        sw      $t0, %lo(inside)($s0)
        addiu   $t0, $t0, -1
        sw      $t0, %lo(inside)($s0)
        addiu   $v0, $0, sig_sem
        syscall
end:    addiu   $v0, $0, ext_tsk
        syscall
