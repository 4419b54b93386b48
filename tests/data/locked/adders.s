# Each task adds 1 to the word `count` fifty times, each time while its processor holds spin lock 1.
adder:  lui     $s0, %hi(count)
        addiu   $s1, $0, 50
        addiu   $a0, $0, 1
again:  addiu   $v0, $0, 60     # loc_spn
        syscall
        lw      $t0, %lo(count)($s0)
        addiu   $t0, $t0, 1
        sw      $t0, %lo(count)($s0)
        addiu   $v0, $0, 62     # unl_spn
        syscall
        addiu   $s1, $s1, -1
        bnez    $s1, again
        nop
        addiu   $v0, $0, 3      # ext_tsk
        syscall
        .org    0x80001000
count:  .word   0
