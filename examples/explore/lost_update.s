# A lost update: two processors add 1 to a word, each by a load, an addition and a store. Where the other processor
# stores in between, its addition is lost.
# Look for: --word count=2. Found with 1 preemption, of the processor that has loaded and not stored yet.
        .equ    ext_tsk, 3
count:  .word   0
main:   lui     $s0, %hi(count)
        lw      $t0, %lo(count)($s0)
        addiu   $t0, $t0, 1
        sw      $t0, %lo(count)($s0)
        addiu   $v0, $0, ext_tsk
        syscall
