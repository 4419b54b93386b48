# Each exception once: fifteen tasks of falling priority on one processor, of which each ends by one, and a handler.
# The trace names each by its cause: the address of a load or a store, the word that is no instruction, the sum.
adel:   lui     $t0, 0x8000
        lw      $t1, 0x1002($t0)        # unaligned
fetch:  lui     $t0, 0x8000
        addiu   $t0, $t0, 2
        jr      $t0                     # to an address that isn't aligned
        nop
ades:   lui     $t0, 0x8000
        sh      $t1, 0x1001($t0)        # unaligned
ibe:    addiu   $sp, $sp, -8
        jal     leaf
        nop
leaf:   addiu   $t0, $0, 0x10
        jr      $t0                     # a wrong return: outside RAM
        nop
load:   lw      $t0, 0($0)              # a null pointer
store:  sb      $t0, 0($0)
bp:     break   5
ri:     .word   0x7c0a5420              # SEB of Release 2
data:   nop                             # falls into data
        .word   0xffffffff
slot:   b       slot
        b       slot                    # a branch in a delay slot
ov:     lui     $t0, 0x7fff
        ori     $t0, $t0, 0xffff
        addiu   $t1, $0, 1
        add     $t2, $t0, $t1
ovsub:  lui     $t0, 0x8000
        addiu   $t1, $0, 1
        sub     $t2, $t0, $t1
ovaddi: lui     $t0, 0x8000
        addi    $t2, $t0, -1
tr:     addiu   $t0, $0, 7
        teq     $t0, $t0
tri:    addiu   $t0, $0, 7
        tgei    $t0, 5
inslot: b       inslot
        lw      $t0, 1($0)              # unaligned, in a delay slot
handler: lb     $t0, 0($0)              # stops its processor
