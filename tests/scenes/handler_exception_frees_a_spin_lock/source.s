# A handler of processor 2 executes BREAK while it holds a spin lock. The processor is stopped, and the lock is free:
# processor 1, which has asked for it in two steps, gets it. It writes 0, the answer.
task:   addiu   $a0, $0, 1
        addiu   $v0, $0, 60
        syscall                         # loc_spn(1)
        addu    $s1, $0, $v0
        addiu   $v0, $0, 62
        syscall                         # unl_spn(1)
        addiu   $a0, $s1, 48
        addiu   $v0, $0, 40
        syscall                         # put_chr('0')
        addiu   $v0, $0, 3
        syscall                         # ext_tsk()
handler: addiu  $a0, $0, 1
        addiu   $v0, $0, 103
        syscall                         # iloc_spn(1)
        break
