# Processor 1 takes lock 1, and processor 2 asks for it: calls that come again are one line where no other line comes
# between them; ordinary instructions may. Then processor 2 gets the lock, and its task executes BREAK.
one:    addiu   $a0, $0, 1
        addiu   $v0, $0, 60
        syscall                         # loc_spn(1)
        nop
        addiu   $v0, $0, 15
        syscall                         # unl_cpu, while it holds the lock
        addiu   $v0, $0, 62
        syscall                         # unl_spn(1)
        addiu   $v0, $0, 62
        syscall                         # unl_spn(1), which it doesn't hold
end:    b       end
        nop
two:    addiu   $a0, $0, 1
        addiu   $v0, $0, 61
        syscall                         # try_spn(1)
        addiu   $v0, $0, 60
        syscall                         # loc_spn(1)
        break
