#!/bin/bash
# The tests of `board run`: tests/programs/run.sh PROGRAM. Most are scenes (tests/programs/scenes.sh); here is what no
# scene can say.
. "$(dirname "$0")/check.sh"
. tests/programs/growths.sh

# run NAME STATUS OUTPUT-FILE ERROR IMAGE CONFIG JOURNAL: runs `board run`.
run() {
    "$board" run "$5" "$6" "$7" < /dev/null > "$work/out" 2> "$work/err"
    check "run: $1" "$2" "$3" "$4" $?
}

# Processors that add to one word, fifty times each, under a spin lock: they step in turn, and nothing is lost.
# added PROCESSORS EVENTS CONFIG WORD: the word at the end is WORD, a byte after the other, and all are idle.
added() {
    awk -v n="$1" -v events="$2" 'BEGIN {
        print "board-journal 1"
        for (i = 0; i < events; i++) print "S " i % n + 1 " 1"
    }' > "$work/journal"
    "$board" run "$work/image" "$3" "$work/journal" > "$work/out" 2>&1
    idle=$(grep -c '^cpu [1-8] idle$' "$work/out")
    word=$(printf 'goto %s\nmem 80001000\nmem 80001001\nmem 80001002\nmem 80001003\n' "$2" \
        | "$board" debug "$work/image" "$3" "$work/journal" 2>&1)
    verdict "run: $1 processors add under a spin lock" \
        "$([ "$idle ${word//$'\n'/ }" = "$1 at $2 $4" ] || echo "$idle are idle; the word: ${word//$'\n'/ }")"
}
"$board" asm tests/data/locked/adders.s "$work/image" 2> "$work/err" || fail "run: the adders" "$(cat "$work/err")"
added 2 10000 tests/data/locked/two.cfg "00 00 00 64"
added 8 40000 tests/data/locked/eight.cfg "00 00 01 90"

# A task that has ended by an exception.
example=examples/fault/fault
"$board" asm $example.s "$work/image" 2> "$work/err" || fail "run: a fault" "$(cat "$work/err")"
"$board" run "$work/image" $example.cfg $example.journal > "$work/out" 2> "$work/err"
check "run: a task that has ended by an exception" 0 $example.report \
    "board: warning: the run: task 1 has ended by an exception, AdEL at 0x80000008: trace --summary says more" $?
# ended NAME SOURCE WARNING: what is warned of a task that ends so.
ended() {
    printf '%b' "$2" > "$work/ended.s"
    "$board" try --steps 100000 --keep "$work/ended" "$work/ended.s" > "$work/out" 2> "$work/err"
    "$board" asm "$work/ended.s" "$work/ended.elf" 2> "$work/err"
    "$board" run "$work/ended.elf" "$work/ended.cfg" "$work/ended.journal" > "$work/out" 2> "$work/err"
    verdict "run: $1" "$(grep -qxF "board: warning: the run: task 1 has ended by an exception, $3" "$work/err" ||
        cat "$work/err")"
}
# shellcheck disable=SC2016
{
    ended "a task whose function returns" 'main: jr $ra\nnop\n' \
        "IBE at 0x00000000: its function has returned (end it by ext_tsk or ext_ker)"
    ended "a jump by a register" 'main: lui $t9, 0x1234\njr $t9\nnop\n' \
        "IBE at 0x12340000, which is in \$t9: trace --summary says more"
    ended "a jump to a halfword" 'main: lui $t9, 0x8000\naddiu $t9, $t9, 2\njr $t9\nnop\n' \
        "AdEL at 0x80000002, which is in \$t9: trace --summary says more"
    ended "a jump by two registers" 'main: lui $t9, 0x1234\nlui $t8, 0x1234\njr $t9\nnop\n' \
        "IBE at 0x12340000: trace --summary says more"
    ended "a run off the end" 'main: nop\n' \
        "IBE at 0x80010000, behind all of RAM: it may have run off the end of the program"
    ended "a jump into data" 'main: b x\nnop\nx: .word 5\n' \
        "RI at 0x80000008, where no instruction lies: trace --summary says more"
    ended "a branch in a slot" 'main: b main\nb main\nnop\n' "RI at 0x80000004: trace --summary says more"
}

# The files are opened in the order of the arguments, before any is read.
lay hello many_steps_in_a_row
hello=$laid/hello
cp $hello/image.elf "$work/hello"
for missing in 5 6 7; do
    arguments=("$work/hello" $hello/config.cfg $hello/journal)
    for ((i = missing - 5; i < 3; i++)); do arguments[i]=$work/nosuch$i; done
    run "argument $((missing - 4)) is missing" 4 "$work/nothing" \
        "board: can't open $work/nosuch$((missing - 5)): $is_missing" "${arguments[@]}"
done
run "CONFIG is a folder" 4 "$work/nothing" "board: can't read the configuration: $is_directory" "$work/hello" / \
    $hello/journal
run "IMAGE is a folder" 4 "$work/nothing" "board: can't read the object file: $is_directory" / / /
run "JOURNAL is a folder" 4 "$work/nothing" "board: can't read the journal: $is_directory" "$work/hello" \
    $hello/config.cfg /

# A file in the place of another. Fields: the argument, counted from 0; the file; what it looks like, where that is
# another kind than it should be of, or that it is empty; the fault where that is another one.
faults=("the object file: no ELF file: it doesn't begin with the bytes 7F 45 4C 46"
    "the configuration: line 1: found what no statement has here, expected one in the form of its kind"
    "the journal: line 1: expected \`board-journal 2 big\` or \`board-journal 2 little\` first, then lines \`S CPU COUNT\`, \`T COUNT\` and \`R LINE COUNT\`")
printf 'nop\0' > "$work/bytes"
printf '{ BOARD(1, 0x10000);\n' > "$work/brace"
printf 'BOARD (2;\n' > "$work/board"
printf '/* a comment // and */ // another\n\n\tBOARD' > "$work/comments"
printf 'board-journal 2\n' > "$work/version"
printf '\x7fELF' > "$work/front"
{ printf '%01024d' 0; printf '\1'; } > "$work/text"
{ printf '%01023d' 0; printf '\1'; } > "$work/no_text"
source='; it looks like assembler source, which "board asm" makes an object file of'
while IFS='|' read -r place file looks fault; do
    arguments=("$work/hello" $hello/config.cfg $hello/journal)
    arguments[place]=$file
    run "$(basename "$file") as argument $((place + 1))" 1 "$work/nothing" "board: ${fault:-${faults[place]}$looks}" \
        "${arguments[@]}"
done << END
0|$hello/config.cfg|; it looks like a configuration
0|$work/comments|; it looks like a configuration
0|$hello/journal|; it looks like a journal
0|$hello/source.s|$source
0|$work/brace|$source
0|$work/text|$source
0|$work/no_text|
0|$work/bytes|
0|$work/nothing|; it is empty
1|$work/hello|; it looks like an object file
1|$hello/journal|; it looks like a journal
1|$hello/source.s||the configuration: line 1: no lines with #: send the text through the C preprocessor first (cc -E -P)
1|$work/board||the configuration: line 1: a comma or an operand is missing: the form is BOARD(processors, ram);
1|$work/bytes||the configuration: line 1: this kernel hasn't nop (there are BOARD, CLASS, CRE_TSK, CRE_SEM, CRE_FLG, CRE_DTQ, CRE_SPN and DEF_INH)
1|$work/nothing|; it is empty
2|$work/hello|; it looks like an object file
2|$work/front|; it looks like an object file
2|$hello/config.cfg|; it looks like a configuration
2|$work/board|; it looks like a configuration
2|$hello/source.s||the journal: line 1, column 1: no comments: leave this out
2|$work/version||the journal: line 1, column 1: the first line is \`board-journal 2 big\` or \`board-journal 2 little\`, found board-journal 2
2|$work/bytes||the journal: line 1, column 1: the first line is \`board-journal 2 big\` or \`board-journal 2 little\`, found nop?
2|$work/nothing|; it is empty
END
run "all three turned round" 1 "$work/nothing" "board: ${faults[0]}; it looks like a journal" $hello/journal \
    "$work/hello" $hello/config.cfg

# Warnings, with the same report all the same: a processor that isn't there, and a journal with which nothing starts.
{ cat $hello/journal; printf 'S 2 3\nS 0 1\n'; } > "$work/journal"
sed 's/^events 6$/events 10/' $hello/report > "$work/wanted"
absent='these steps do nothing'
run "a processor that isn't there" 0 "$work/wanted" \
    "board: warning: the journal: it steps processor 2, and the board has 1: $absent" \
    "$work/hello" $hello/config.cfg "$work/journal"
printf 'BOARD(1, 0x10000);\nCRE_TSK(1, {0, 0, _start, 1, 256, NULL});\n' > "$work/dormant.cfg"
printf 'events 6\ntick 0\noff 0\ncpu 1 idle\ntask 1 dormant pri 1 cpu 1\nconsole 0\n\n' > "$work/wanted"
idle='no task is started: one that begins at once has the attribute TA_ACT'
run "no task is started" 0 "$work/wanted" "board: warning: the configuration: $idle" \
    "$work/hello" "$work/dormant.cfg" $hello/journal
# None where an interrupt comes, by which tasks may be started, or where there are no events.
{ cat $hello/journal; echo 'R 1 1'; } > "$work/journal"
sed 's/^events 6$/events 7/' "$work/wanted" > "$work/raised"
run "no task is started, but an interrupt comes" 0 "$work/raised" "" "$work/hello" "$work/dormant.cfg" "$work/journal"
head -n 1 $hello/journal > "$work/journal"
sed 's/^events 6$/events 0/' "$work/wanted" > "$work/empty"
run "no task is started, and there are no events" 0 "$work/empty" "" "$work/hello" "$work/dormant.cfg" "$work/journal"
# Both, of which the first is told; and it isn't played where a fault is told.
{ cat $hello/journal; echo 'S 9 1'; } > "$work/journal"
sed 's/^events 6$/events 7/' "$work/wanted" > "$work/both"
run "two warnings, of which one is told" 0 "$work/both" \
    "board: warning: the journal: it steps processor 9, and the board has 1: $absent" \
    "$work/hello" "$work/dormant.cfg" "$work/journal"

# A report that can't be written.
if [ -e /dev/full ]; then
    "$board" run "$work/hello" $hello/config.cfg $hello/journal > /dev/full 2> "$work/err"
    status=$?
    : > "$work/out"
    check "run: a full output" 4 "$work/nothing" "board: can't write the output: $is_full" $status
fi

# An input one byte too long: the journal's newlines are never looked at.
head -c 134217729 /dev/zero > "$work/long"
run "a journal that is too long" 4 "$work/nothing" "board: the journal is longer than 134,217,728 bytes" \
    "$work/hello" $hello/config.cfg "$work/long"
rm "$work/long"

# As many runs as a journal may have, none of which has a neighbour of its event, and one more.
{ echo 'board-journal 1'; yes $'S 1 1\nT 1' | head -n 4194304; } > "$work/journal"
sed 's/^events 6$/events 4194304/; s/^tick 0$/tick 4/' $hello/report > "$work/wanted"
run "4,194,304 runs" 0 "$work/wanted" "" "$work/hello" $hello/config.cfg "$work/journal"
echo 'S 1 1' >> "$work/journal"
run "4,194,305 runs" 1 "$work/nothing" "board: the journal: line 4194306: with this line there are more than 4194304 runs, which is the limit" \
    "$work/hello" $hello/config.cfg "$work/journal"
echo 'S 1 1 ' >> "$work/journal"
run "a wrong line behind 4,194,305 runs" 1 "$work/nothing" \
    "board: the journal: line 4194306: with this line there are more than 4194304 runs, which is the limit" \
    "$work/hello" $hello/config.cfg "$work/journal"
rm "$work/journal"

# A large object file: what stands after all that it names is read, and ignored. And one as long as an input may be.
cp "$work/hello" "$work/padded"
truncate -s 100000000 "$work/padded"
run "an object file of 100,000,000 bytes" 0 $hello/report "" "$work/padded" $hello/config.cfg $hello/journal
truncate -s 134217728 "$work/padded"
run "an object file of 134,217,728 bytes" 0 $hello/report "" "$work/padded" $hello/config.cfg $hello/journal
truncate -s 134217729 "$work/padded"
run "an object file of one byte more" 4 "$work/nothing" "board: the object file is longer than 134,217,728 bytes" \
    "$work/padded" $hello/config.cfg $hello/journal
{ cat $hello/config.cfg; head -c 134217729 /dev/zero | tr '\0' ' '; } > "$work/padded"
run "a configuration that is too long" 4 "$work/nothing" "board: the configuration is longer than 134,217,728 bytes" \
    "$work/hello" "$work/padded" $hello/journal
rm "$work/padded"

# It takes no more memory than it needs: 16 MiB of RAM, and little more.
sed 's/0x10000)/0x1000000)/' $hello/config.cfg > "$work/large.cfg"
(ulimit -v 40000; exec "$board" run "$work/hello" "$work/large.cfg" $hello/journal) \
    < /dev/null > "$work/out" 2> "$work/err"
check "run: 16 MiB of RAM in 40,000 KiB" 0 $hello/report "" $?

: > "$work/in"
cp $hello/report "$work/wanted"
refuse_each "run" 3 "board: out of memory" "$board" run "$work/hello" $hello/config.cfg $hello/journal

# Where there is no memory for decoded instructions, many steps in a row go on without them.
rows=$laid/many_steps_in_a_row
cp $rows/image.elf "$work/rows"
cp $rows/report "$work/wanted"
refuse_each "run, many steps in a row" 3 "board: out of memory" "$board" run "$work/rows" $rows/config.cfg $rows/journal

# An event takes no memory; many steps in a row take some once. Under one journal of 100,000 events and more, task 1
# turns the board off in its first round, after 1,000 ticks and ten events, or never: the program asks for memory just
# as often, and once more for decoded instructions. (The journal begins with ticks and ends as it does so that the lines
# of both reports take the same room.)
counted=tests/data/counted
{
    printf 'board-journal 1\nT 1000\n'
    for ((i = 0; i < 1400; i++)); do printf 'S 1 7\nS 2 30\nT 1\nS 3 4\nR 4 1\nS 2 25\nS 1 4\n'; done
    printf 'T 5\nS 2 8\n'
} > "$work/journal"
# growths ROUND: how many growths there are where the board goes off in that round. The report is in $work/out.
growths() {
    { echo ".equ last, $1"; cat $counted/source.s; } > "$work/source"
    "$board" asm "$work/source" "$work/image"
    counts "$board" run "$work/image" $counted/config.cfg "$work/journal"
}
if [ "$can_refuse" = yes ]; then
    few=$(growths 1)
    early=$(sed -n '/^off/p' "$work/out")
    many=$(growths 30000)
    late=$(sed -n '/^off/p' "$work/out")
    wrong=
    [ "$early, $late" = "off 1, off 0" ] || wrong="; the board is $early, and $late"
    [ "$few" -gt 100 ] && [ "$((few + 1))" = "$many" ] ||
        wrong="$wrong; $few growths with few events, $many with 100,000"
    verdict "run: an event takes no memory" "$wrong"
    # All kinds of events are among them: one of each is at a position where the board shows it.
    printf 'break %s\nnext\n' 8000001c 80000154 80000158 800000cc 800000fc 80000140 > "$work/in"
    "$board" debug "$work/image" $counted/config.cfg "$work/journal" < "$work/in" 2> "$work/err" \
        | grep -c '^at ' > "$work/out"
    echo 6 > "$work/wanted"
    check "run: these events are of each kind" 0 "$work/wanted" "" 0
else
    skip "run: an event takes no memory" cc
fi

summary
