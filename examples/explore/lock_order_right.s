# Two spin locks, one of the kernel and a word of the program's own, that two processors take in the same order.
# Look for: --word count=2 --fair 10. There is none.
        .equ    ext_tsk, 3
        .equ    loc_spn, 60
        .equ    unl_spn, 62
lock:   .word   0, 0, 0, 0
count:  .word   0
first:  lui     $s0, %hi(lock)
        addiu   $a0, $0, 1
        addiu   $v0, $0, loc_spn
        syscall
        bal     take
        nop
        b       add
        nop
second: lui     $s0, %hi(lock)
        addiu   $a0, $0, 1
        addiu   $v0, $0, loc_spn
        syscall
        bal     take
        nop
add:    lw      $t0, %lo(count)($s0)
        addiu   $t0, $t0, 1
        sw      $t0, %lo(count)($s0)
        sw      $0, %lo(lock)($s0)
        addiu   $v0, $0, unl_spn
        syscall
        addiu   $v0, $0, ext_tsk
        syscall
take:   ll      $t0, %lo(lock)($s0)
        bnez    $t0, take
        addiu   $t0, $0, 1
        sc      $t0, %lo(lock)($s0)
        beqz    $t0, take
        nop
        jr      $ra
        nop
