# A task and a handler of the same processor add 1 to a word.
# Broken: the interrupt may come between the task's load and its store.
# Look for: --word count=2 --raises 1 --lines 3. Found without a preemption: there is one processor.
        .equ    ext_tsk, 3
        .equ    ret_int, 58
count:  .word   0
main:   lui     $s0, %hi(count)
        lw      $t0, %lo(count)($s0)
        addiu   $t0, $t0, 1
        sw      $t0, %lo(count)($s0)
        addiu   $v0, $0, ext_tsk
        syscall
handle: lui     $s0, %hi(count)
        lw      $t0, %lo(count)($s0)
        addiu   $t0, $t0, 1
        sw      $t0, %lo(count)($s0)
        addiu   $v0, $0, ret_int
        syscall
