# Task 1 takes the only block of a memory pool, and waits for it: task 2 gives it back for it. Then it gives it back
# itself, and takes it once more.
first:  addiu   $a0, $0, 1
        addiu   $v0, $0, 83
        syscall                         # pget_mpf(1)
        addiu   $v0, $0, 83
        syscall                         # pget_mpf(1): none is there
        addiu   $v0, $0, 82
        syscall                         # get_mpf(1): it waits
        addiu   $a1, $0, 1
        addiu   $v0, $0, 91
        syscall                         # ref_mpf(1, 1): how many are there
        addu    $a1, $0, $v1
        addiu   $v0, $0, 85
        syscall                         # rel_mpf(1, 0): no block
        lui     $a1, 0x8000
        ori     $a1, $a1, 0x8000
        addiu   $v0, $0, 85
        syscall                         # rel_mpf(1, the block)
        addiu   $a1, $0, 5
        addiu   $v0, $0, 84
        syscall                         # tget_mpf(1, 5)
        addiu   $v0, $0, 3
        syscall                         # ext_tsk
second: addiu   $a0, $0, 1
        lui     $a1, 0x8000
        ori     $a1, $a1, 0x8000
        addiu   $v0, $0, 85
        syscall                         # rel_mpf(1, the block)
        addiu   $v0, $0, 3
        syscall                         # ext_tsk
