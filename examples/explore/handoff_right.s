# One processor writes A to the console, then the other one B, and turns the board off.
# Right: the word is stored when A is written.
# Look for: --console AB --ends --fair 10. There is none.
        .equ    ext_tsk, 3
        .equ    put_chr, 40
        .equ    ext_ker, 41
ready:  .word   0
first:  lui     $s0, %hi(ready)
        addiu   $t0, $0, 1
        addiu   $a0, $0, 65             # A
        addiu   $v0, $0, put_chr
        syscall
        sw      $t0, %lo(ready)($s0)
        addiu   $v0, $0, ext_tsk
        syscall
second: lui     $s0, %hi(ready)
wait:   lw      $t0, %lo(ready)($s0)
        beqz    $t0, wait
        addiu   $a0, $0, 66             # B
        addiu   $v0, $0, put_chr
        syscall
        addiu   $v0, $0, ext_ker
        syscall
