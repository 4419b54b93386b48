# Tasks that run past what is loaded. Task 1 goes on behind its last instruction, through memory to which nothing was
# loaded, up to the end of RAM, where nothing can be fetched. Task 2 is on its way there. Task 3 jumps to an address below
# RAM, and below all that is loaded. Processor 4 does no step.
third:  lui     $t0, 0x1000
        jr      $t0
        nop
second: b       first
        nop
        break
first:  addiu   $t0, $zero, 5
