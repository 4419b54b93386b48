# A task and a handler of the same processor add 1 to a word.
# Right: the task locks its processor, so the interrupt is accepted before or after the addition.
# Look for: --word count=2 --raises 1 --lines 3. There is none.
        .equ    ext_tsk, 3
        .equ    loc_cpu, 14
        .equ    unl_cpu, 15
        .equ    ret_int, 58
count:  .word   0
main:   addiu   $v0, $0, loc_cpu
        syscall
        lui     $s0, %hi(count)
        lw      $t0, %lo(count)($s0)
        addiu   $t0, $t0, 1
        sw      $t0, %lo(count)($s0)
        addiu   $v0, $0, unl_cpu
        syscall
        addiu   $v0, $0, ext_tsk
        syscall
handle: lui     $s0, %hi(count)
        lw      $t0, %lo(count)($s0)
        addiu   $t0, $t0, 1
        sw      $t0, %lo(count)($s0)
        addiu   $v0, $0, ret_int
        syscall
