# Two tasks take a semaphore; the second one waits for a tick at most.
# Right: without the semaphore it leaves.
# Look for: --word inside=0..1 --ticks 2. There is none.
        .equ    ext_tsk, 3
        .equ    sig_sem, 24
        .equ    wai_sem, 25
        .equ    twai_sem, 27
inside: .word   0
first:  addiu   $a0, $0, 1
        addiu   $v0, $0, wai_sem
        syscall
        b       enter
        nop
second: addiu   $a0, $0, 1
        addiu   $a1, $0, 1
        addiu   $v0, $0, twai_sem
        syscall
        bnez    $v0, end
        nop
enter:  lui     $s0, %hi(inside)
        lw      $t0, %lo(inside)($s0)
        addiu   $t0, $t0, 1
        sw      $t0, %lo(inside)($s0)
        addiu   $t0, $t0, -1
        sw      $t0, %lo(inside)($s0)
        addiu   $v0, $0, sig_sem
        syscall
end:    addiu   $v0, $0, ext_tsk
        syscall
