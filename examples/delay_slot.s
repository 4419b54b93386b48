# A branch and its delay slot: the instruction behind a branch is executed before the branch takes effect.
_start: addiu $t0, $zero, 5
        b     end
        addiu $t0, $t0, 1      # the slot: executed
        addiu $t0, $t0, 100    # skipped
end:    addu  $t1, $t0, $t0
