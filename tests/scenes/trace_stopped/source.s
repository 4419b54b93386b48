# A task waits for a semaphore that only a handler could give. The handler ends in an exception, which stops its processor
# for good: a line that is raised then stays pending, and the task waits on.
_start: addiu   $v0, $zero, 25          # wai_sem(1)
        addiu   $a0, $zero, 1
        syscall
        b       _start
        nop
press:  break
