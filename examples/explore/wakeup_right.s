# One task waits for another's word by a semaphore, which is given only if somebody waits.
# Right: it says that it waits, and then looks whether the word is there.
# Look for: --deadlock. There is none.
        .equ    ext_tsk, 3
        .equ    sig_sem, 24
        .equ    wai_sem, 25
ready:  .word   0
waits:  .word   0
first:  lui     $s0, %hi(ready)         # waits
        addiu   $t1, $0, 1
        sw      $t1, %lo(waits)($s0)
        lw      $t0, %lo(ready)($s0)
        bnez    $t0, end
        nop
sleep:  addiu   $a0, $0, 1
        addiu   $v0, $0, wai_sem
        syscall
        b       end
        nop
second: lui     $s0, %hi(ready)         # makes it ready
        addiu   $t1, $0, 1
        sw      $t1, %lo(ready)($s0)
        lw      $t0, %lo(waits)($s0)
        beqz    $t0, end
        addiu   $a0, $0, 1
        addiu   $v0, $0, sig_sem
        syscall
end:    addiu   $v0, $0, ext_tsk
        syscall
