# Seven mistakes that beginners make, each on a processor or in a task of its own. `run` shows of all that dormant and
# waiting tasks are left; the summary names each by its place and its cause.
unaligned: lui  $t0, %hi(value)
        addiu   $t0, $t0, %lo(value)
        lw      $t1, 2($t0)             # a word from an address that isn't a multiple of 4
branch: b       branch
        j       branch                  # a jump in the delay slot
fall:   addiu   $t0, $0, 1              # no ext_tsk: it goes on into the data
value:  .word   0x7fffffff
sum:    lui     $t0, %hi(value)
        lw      $t1, %lo(value)($t0)
        addi    $t1, $t1, 1             # more than a signed word
calls:  addiu   $v0, $0, 106
        syscall                         # no such call
        addiu   $a0, $0, 7
        addiu   $v0, $0, 25
        syscall                         # wai_sem of a semaphore that isn't there
        addiu   $a0, $0, 1
        syscall                         # v0 is E_NOEXS now, and not the number of wai_sem any more
        addiu   $v0, $0, 25
        syscall                         # waits for a semaphore that nobody returns
