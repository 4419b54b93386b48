#!/bin/bash
# The tests of `board trace --races`: tests/programs/races.sh PROGRAM. Most are scenes (tests/programs/scenes.sh), one
# for each thing that orders, most also without it; here is what no scene can say, and what the model says of the
# scenes.
. "$(dirname "$0")/check.sh"

# How many words have a race in the other examples: in the one about a race, and in the one whose meter marks without a
# lock what another task shows, a sample and, by its mistake, which one that is.
while read -r example count; do
    "$board" asm "examples/$example.s" "$work/image"
    "$board" trace --races "$work/image" "examples/$example.cfg" "examples/$example.journal" > "$work/out" 2>&1
    verdict "races: examples/$example" "$(tail -n 1 "$work/out" | grep -qE "^races: $count words?\$" ||
        cat "$work/out")"
done << 'END'
data_queue/data_queue 0
deadlock/deadlock 0
fault/fault 2
hello/hello 0
interrupt/interrupt 0
mailbox/mailbox 0
priority_inversion/inversion 0
recorded_race/counter 1
spin_lock/spin_lock 0
two_tasks/two_tasks 0
END

# Two tasks store into the same 131,072 words. A minute of processor time is enough by far: only a program that goes
# through all races that it has found, for each touch, takes more.
cat > "$work/many.s" << 'END'
one:    lui $s0, %hi(words)
        addiu $s0, $s0, %lo(words)
        lui $s1, 0x8
        addu $s1, $s0, $s1
again:  sw $0, 0($s0)
        addiu $s0, $s0, 4
        bne $s0, $s1, again
        nop
        addiu $v0, $0, 3
        syscall
        .align 8
words:  .word 0
END
printf '%s\n' 'BOARD(2, 0x100000);' 'CRE_TSK(1, {TA_ACT, 0, one, 1, 256, NULL});' \
    'CLASS(TCL_2) { CRE_TSK(2, {TA_ACT, 0, one, 1, 256, NULL}); }' > "$work/many.cfg"
printf 'board-journal 1\nS 1 600000\nS 2 600000\n' > "$work/many.journal"
for ((i = 0; i < 131072; i++)); do
    printf -v address %08x $((0x80000100 + 4 * i))
    [ "$i" -gt 0 ] || address="words ($address)"
    where='at again (80000010), stores'
    echo "race at $address: event $((4 + 4 * i)), task 1 $where; event $((600004 + 4 * i)), task 2 $where"
done > "$work/many.races"
echo "races: 131072 words" >> "$work/many.races"
"$board" asm "$work/many.s" "$work/image"
(ulimit -t 60; exec "$board" trace --races "$work/image" "$work/many.cfg" "$work/many.journal") \
    < /dev/null > "$work/out" 2> "$work/err"
check "races: many words" 0 "$work/many.races" "" $?

if have python3 "the model"; then
    # The same scenes by the model, which asks of each pair of touches whether one comes before the other.
    names=$(cd tests/scenes && printf '%s\n' */races)
    # shellcheck disable=SC2086
    lay ${names//\/races/}
    wrong=$(tests/model/races --scenes "$board" "$laid"/*/ 2>&1) && wrong=
    verdict "races: the scenes by the model" "$(head -n 3 <<< "$wrong")"
fi

if have python3 "random boards beside the model"; then
    wrong=$(tests/model/races "$board" --boards 200 2>&1) && wrong=
    verdict "races: random boards beside the model" "$(head -n 3 <<< "$wrong")"
fi

summary
