# The calls by which a handler CPU-locks its processor and takes spin locks: what each does, and each refusal. A task that
# makes them is refused, and holds lock 2 of processor 1 then; the handler is one of processor 2.
task:   addiu   $v0, $0, 101
        syscall                         # iloc_cpu() of a task: E_CTX
        addiu   $v0, $0, 102
        syscall                         # iunl_cpu(): E_CTX
        addiu   $a0, $0, 1
        addiu   $v0, $0, 103
        syscall                         # iloc_spn(1): E_CTX
        addiu   $v0, $0, 104
        syscall                         # itry_spn(1): E_CTX
        addiu   $v0, $0, 105
        syscall                         # iunl_spn(1): E_CTX
        addiu   $a0, $0, 2
        addiu   $v0, $0, 60
        syscall                         # loc_spn(2)
end:    b       end
        nop
handler: addiu  $v0, $0, 101
        syscall                         # iloc_cpu()
        addiu   $v0, $0, 101
        syscall                         # iloc_cpu() of a locked handler
        addiu   $v0, $0, 67
        syscall                         # sns_loc(): 1
        addiu   $v0, $0, 56
        syscall                         # iget_tid(): E_CTX, since it is locked
        addiu   $a0, $0, 1
        addiu   $v0, $0, 103
        syscall                         # iloc_spn(1): E_CTX
        addiu   $v0, $0, 104
        syscall                         # itry_spn(1): E_CTX
        addiu   $v0, $0, 105
        syscall                         # iunl_spn(1), which it doesn't hold: E_ILUSE
        addiu   $v0, $0, 102
        syscall                         # iunl_cpu()
        addiu   $v0, $0, 102
        syscall                         # iunl_cpu() of one that isn't locked
        addiu   $v0, $0, 67
        syscall                         # sns_loc(): 0
        addiu   $a0, $0, 0
        addiu   $v0, $0, 103
        syscall                         # iloc_spn(0): E_ID
        addiu   $a0, $0, 256
        addiu   $v0, $0, 105
        syscall                         # iunl_spn(256): E_ID
        addiu   $a0, $0, 3
        addiu   $v0, $0, 104
        syscall                         # itry_spn(3): E_NOEXS
        addiu   $v0, $0, 103
        syscall                         # iloc_spn(3): E_NOEXS
        addiu   $a0, $0, 2
        addiu   $v0, $0, 104
        syscall                         # itry_spn(2), which processor 1 holds: E_OBJ
        addiu   $a0, $0, 1
        addiu   $v0, $0, 104
        syscall                         # itry_spn(1)
        addiu   $v0, $0, 102
        syscall                         # iunl_cpu(), while it holds a spin lock: E_CTX
        addiu   $v0, $0, 51
        syscall                         # isig_sem(1): E_CTX
        addiu   $a0, $0, 2
        addiu   $v0, $0, 105
        syscall                         # iunl_spn(2): E_ILUSE
        addiu   $a0, $0, 1
        addiu   $v0, $0, 105
        syscall                         # iunl_spn(1)
        addiu   $v0, $0, 103
        syscall                         # iloc_spn(1)
        addiu   $v0, $0, 105
        syscall                         # iunl_spn(1)
        addiu   $v0, $0, 60
        syscall                         # loc_spn(1) of a handler: E_CTX, and so the four after it
        addiu   $v0, $0, 61
        syscall                         # try_spn(1)
        addiu   $v0, $0, 62
        syscall                         # unl_spn(1)
        addiu   $v0, $0, 14
        syscall                         # loc_cpu()
        addiu   $v0, $0, 15
        syscall                         # unl_cpu()
        addiu   $v0, $0, 101
        syscall                         # iloc_cpu()
        addiu   $v0, $0, 58
        syscall                         # ret_int(), which unlocks the processor: it goes on
other:  addiu   $v0, $0, 67
        syscall                         # sns_loc(): 0
        addiu   $v0, $0, 3
        syscall                         # ext_tsk()
