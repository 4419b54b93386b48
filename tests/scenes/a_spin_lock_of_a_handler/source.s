# A spin lock orders what a handler does under it before what a task of another processor does under it.
task:   addiu   $a0, $0, 1
        addiu   $v0, $0, 60
        syscall                         # loc_spn(1)
        lui     $s0, %hi(word)
        lw      $s1, %lo(word)($s0)
        addiu   $v0, $0, 62
        syscall                         # unl_spn(1)
        addiu   $v0, $0, 3
        syscall                         # ext_tsk()
handler: addiu  $a0, $0, 1
        addiu   $v0, $0, 104
        syscall                         # itry_spn(1)
        lui     $s0, %hi(word)
        sw      $a0, %lo(word)($s0)
        addiu   $v0, $0, 105
        syscall                         # iunl_spn(1)
        addiu   $v0, $0, 58
        syscall                         # ret_int()
        .align  8
word:   .word   0
