# A handler of processor 2 ends by ret_int while it holds a spin lock, for which a task of processor 1 asks. The lock is
# free then, and processor 2 isn't CPU-locked: it accepts the next interrupt. What the handler did under the lock isn't
# ordered before what the task does under it.
task:   addiu   $a0, $0, 1
        addiu   $v0, $0, 60
        syscall                         # loc_spn(1)
        lui     $s0, %hi(word)
        lw      $s1, %lo(word)($s0)
        addiu   $v0, $0, 62
        syscall                         # unl_spn(1)
        addiu   $v0, $0, 3
        syscall                         # ext_tsk()
handler: addiu  $a0, $0, 1
        addiu   $v0, $0, 103
        syscall                         # iloc_spn(1)
        lui     $s0, %hi(word)
        sw      $a0, %lo(word)($s0)
        addiu   $v0, $0, 58
        syscall                         # ret_int()
        .align  8
word:   .word   0
