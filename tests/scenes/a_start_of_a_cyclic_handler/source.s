# Task 1 writes a word, and then starts a cyclic handler on processor 2, which writes it too at each of its times.
task:   lui     $s0, %hi(word)
        sw      $0, %lo(word)($s0)
        addiu   $a0, $0, 1
        addiu   $v0, $0, 93
        syscall                         # sta_cyc(1)
        addiu   $v0, $0, 3
        syscall                         # ext_tsk
handler: lui    $s0, %hi(word)
        sw      $0, %lo(word)($s0)
        addiu   $v0, $0, 58
        syscall                         # ret_int
        .align  8
word:   .word   0
