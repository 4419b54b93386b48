# A handler of processor 2 asks for a spin lock that a task of processor 1 holds: the call comes again in five steps, and
# neither a tick nor another interrupt comes through. Then the task gives the lock back, and the handler has it.
task:   addiu   $a0, $0, 1
        addiu   $v0, $0, 60
        syscall                         # loc_spn(1)
        nop
        addiu   $v0, $0, 62
        syscall                         # unl_spn(1)
end:    b       end
        nop
handler: addiu  $a0, $0, 1
        addiu   $v0, $0, 103
        syscall                         # iloc_spn(1)
        addiu   $v0, $0, 105
        syscall                         # iunl_spn(1)
        addiu   $v0, $0, 58
        syscall                         # ret_int()
