# Without the profile a handler has no calls that lock its processor or take a spin lock.
handler: addiu  $v0, $0, 101
        syscall                         # iloc_cpu()
        addiu   $v0, $0, 102
        syscall                         # iunl_cpu()
        addiu   $a0, $0, 1
        addiu   $v0, $0, 103
        syscall                         # iloc_spn(1)
        addiu   $v0, $0, 104
        syscall                         # itry_spn(1)
        addiu   $v0, $0, 105
        syscall                         # iunl_spn(1)
        addiu   $v0, $0, 58
        syscall                         # ret_int()
