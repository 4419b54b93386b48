# Task 1 writes a word, and then asks for an alarm handler on processor 2, which writes it too: what comes before the start
# comes before the handler. It comes after no stop: the word that is written then has a race.
task:   lui     $s0, %hi(word)
        sw      $0, %lo(word)($s0)
        addiu   $a0, $0, 1
        addiu   $a1, $0, 0
        addiu   $v0, $0, 95
        syscall                         # sta_alm(1, 0)
        sw      $0, %lo(other)($s0)
        addiu   $v0, $0, 97
        syscall                         # stp_alm(1)
        addiu   $v0, $0, 3
        syscall                         # ext_tsk
handler: lui    $s0, %hi(word)
        sw      $0, %lo(word)($s0)
        sw      $0, %lo(other)($s0)
        addiu   $v0, $0, 58
        syscall                         # ret_int
        .align  8
word:   .word   0
other:  .word   0
