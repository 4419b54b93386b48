#!/bin/bash
# The tests of `board race`: tests/programs/race.sh PROGRAM. What a race does depends on the host; what is tested is
# what has to hold in every one, or boards on which all races end alike.
. "$(dirname "$0")/check.sh"
. tests/programs/growths.sh
journal=$work/journal

# race NAME STATUS OUTPUT-FILE ERROR IMAGE CONFIG SCRIPT QUOTA: runs `board race`, with the journal in $journal.
race() {
    "$board" race "$5" "$6" "$7" "$8" "$journal" < /dev/null > "$work/out" 2> "$work/err"
    check "race: $1" "$2" "$3" "$4" $?
}

# records NAME LINE..: whether $journal has these lines after its first, which names the byte order in $order.
order=big
records() {
    local name=$1
    shift
    { echo "board-journal 2 $order"; [ $# = 0 ] || printf '%s\n' "$@"; } > "$work/lines"
    verdict "race: $name" "$(cmp -s "$journal" "$work/lines" ||
        echo "the journal has $(head -n 5 "$journal" | tr '\n' ';')")"
}

# counted LINE: the sum of the counts of the journal's runs that begin so.
counted() {
    sed -n "s/^$1 \([0-9]*\)\$/\1/p" "$journal" | awk '{ sum += $1 } END { print sum + 0 }'
}

# replays IMAGE CONFIG SCRIPT QUOTA: what is wrong with a race and with `board run` of its journal, or nothing.
replays() {
    "$board" race "$1" "$2" "$3" "$4" "$journal" > "$work/raced" 2>&1 ||
        echo -n "; the race fails: $(head -n 1 "$work/raced")"
    "$board" run "$1" "$2" "$journal" > "$work/ran" 2>&1 || echo -n "; its journal fails: $(head -n 1 "$work/ran")"
    cmp -s "$work/raced" "$work/ran" || echo -n "; another report"
}

# ---- boards on which all races end alike

printf '_start: b _start\n nop\n' > "$work/loop.s"
"$board" asm "$work/loop.s" "$work/loop"
printf 'BOARD(1, 0x10000);\nCRE_TSK(1, {TA_ACT, 0, _start, 1, 256, NULL});\n' > "$work/one"
{
    printf 'BOARD(8, 0x10000);\n'
    for cpu in 1 2 3 4 5 6 7 8; do
        printf 'CLASS(TCL_%s) { CRE_TSK(%s, {TA_ACT, 0, _start, 1, 256, NULL}); }\n' $cpu $cpu
    done
} > "$work/eight"
printf 'T 2\nR 31 3\nT 1\n' > "$work/script"
# report EVENTS TICK PC: the report of the endless loop on one processor.
report() {
    printf 'events %s\ntick %s\noff 0\ncpu 1 task 1 pc %s\ntask 1 ready pri 1 cpu 1\nconsole 0\n\n' "$@" \
        > "$work/report"
}
report 0 0 80000000
race "no steps and an empty script" 0 "$work/report" "" "$work/loop" "$work/one" "$work/nothing" 0
records "no steps and an empty script"
report 1001 0 80000004
race "an endless loop" 0 "$work/report" "" "$work/loop" "$work/one" "$work/nothing" 1001
records "an endless loop" "S 1 1001"
printf '.byteorder little\n_start: b _start\n nop\n' > "$work/little.s"
"$board" asm "$work/little.s" "$work/little"
race "a little-endian board" 0 "$work/report" "" "$work/little" "$work/one" "$work/nothing" 1001
order=little
records "a little-endian board" "S 1 1001"
order=big
verdict "race: a little-endian board: its journal" "$(replays "$work/little" "$work/one" "$work/nothing" 10)"
report 6 3 80000000
race "a script alone" 0 "$work/report" "" "$work/loop" "$work/one" "$work/script" 0
records "a script alone" "T 2" "R 31 3" "T 1"
printf 'T 2\nT 3\n' > "$work/text"
report 5 5 80000000
race "ticks in two lines" 0 "$work/report" "" "$work/loop" "$work/one" "$work/text" 0
records "ticks in two lines" "T 5"
report 1000006 3 80000000
race "the greatest quota" 0 "$work/report" "" "$work/loop" "$work/one" "$work/script" 1000000
verdict "race: the greatest quota: its steps" "$([ "$(counted 'S 1')" = 1000000 ] || echo "there are $(counted 'S 1')")"
verdict "race: the greatest quota: its script" \
    "$([ "$(grep -v '^[bS]' "$journal" | cut -d ' ' -f 1 | uniq | tr -d '\n')" = TRT ] ||
    echo "it came in another order")"

# ---- what holds in every race

wrong=""
for _ in {1..10}; do
    wrong="$wrong$(replays "$work/loop" "$work/eight" "$work/script" 300)"
    for cpu in 1 2 3 4 5 6 7 8; do
        [ "$(counted "S $cpu")" = 300 ] || wrong="$wrong; processor $cpu has $(counted "S $cpu") steps"
    done
    [ "$(counted T)" = 3 ] || wrong="$wrong; there are $(counted T) ticks"
    [ "$(counted 'R 31')" = 3 ] || wrong="$wrong; the line is raised $(counted 'R 31') times"
done
verdict "race: eight processors, ten times" "$wrong"

# Two processors count in one word, and the board goes off in the middle, unless a quota is used up before.
"$board" asm examples/recorded_race/counter.s "$work/counter"
wrong=""
offs=0
for _ in {1..100}; do
    wrong="$wrong$(replays "$work/counter" examples/recorded_race/counter.cfg "$work/script" 20000)"
    if grep -q '^off 1$' "$work/raced"; then offs=$((offs + 1)); fi
    for cpu in 1 2; do
        [ "$(counted "S $cpu")" -le 20000 ] || wrong="$wrong; processor $cpu has $(counted "S $cpu") steps"
    done
done
verdict "race: a counter, a hundred times" "${wrong:0:600}"
verdict "race: a counter: the board goes off" "$([ "$offs" -gt 0 ] || echo "it never does")"

# Processors add to one word under a spin lock, fifty times each. However they race, nothing is lost: the journal's word
# is the sum, if all came to their end.
"$board" asm tests/data/locked/adders.s "$work/adders"
wrong=""
ends=0
for turn in {1..30}; do
    cpus=$((turn % 2 ? 2 : 8))
    config=tests/data/locked/$([ $cpus = 2 ] && echo two || echo eight).cfg
    wrong="$wrong$(replays "$work/adders" "$config" "$work/nothing" 100000)"
    [ "$(grep -c '^cpu [1-8] idle$' "$work/raced")" = $cpus ] || continue
    ends=$((ends + 1))
    events=$(sed -n 's/^events //p' "$work/raced")
    count=$(printf 'goto %s\nmem 80001002\nmem 80001003\n' "$events" |
        "$board" debug "$work/adders" "$config" "$journal" | tail -n 2)
    sum=$(printf '%04x' $((50 * cpus)))
    [ "${count//$'\n'/}" = "$sum" ] || wrong="$wrong; $cpus processors: the word is ${count//$'\n'/}, wanted $sum"
done
verdict "race: adders under a spin lock, thirty times" "${wrong:0:600}"
verdict "race: adders under a spin lock: they end" "$([ "$ends" -gt 0 ] || echo "they never do")"

# ---- files

# The files are opened in the order of the arguments, before any is read; OUT is emptied only where all are there.
cp "$work/script" "$journal"
for missing in 0 1 2; do
    arguments=("$work/loop" "$work/one" "$work/script")
    for ((i = missing; i < 3; i++)); do arguments[i]=$work/nosuch$i; done
    race "argument $((missing + 1)) is missing" 4 "$work/nothing" \
        "board: can't open $work/nosuch$missing: $is_missing" \
        "${arguments[@]}" 1
    verdict "race: argument $((missing + 1)) is missing: OUT" "$(cmp -s "$journal" "$work/script" ||
        echo "it has changed")"
done
journal=$work/nosuch/journal
race "OUT can't be created" 4 "$work/nothing" "board: can't open $journal: $is_missing" "$work/script" / / 1
journal=$work/journal

# What is read is at fault: OUT is empty.
place=0
faults=("the object file: no ELF file: it doesn't begin with the bytes 7F 45 4C 46"
    "the configuration: line 1: found what no statement has here, expected one in the form of its kind"
    "the script: line 1: expected \`T COUNT\` or \`R LINE COUNT\`, and at most 1,000,000 events in all")
for fault in "${faults[@]}"; do
    arguments=("$work/loop" "$work/one" "$work/script")
    printf 'board-journal 1\n' > "$work/another"
    for ((i = place; i < 3; i++)); do arguments[i]=$work/another; done
    cp "$work/script" "$journal"
    race "a journal as argument $((place + 1))" 1 "$work/nothing" "board: $fault; it looks like a journal" \
        "${arguments[@]}" 1
    verdict "race: a journal as argument $((place + 1)): OUT" "$([ -e "$journal" ] && [ ! -s "$journal" ] ||
        echo "it isn't empty")"
    place=$((place + 1))
done
race "IMAGE is a folder" 4 "$work/nothing" "board: can't read the object file: $is_directory" / / / 1
race "CONFIG is a folder" 4 "$work/nothing" "board: can't read the configuration: $is_directory" "$work/loop" / / 1
race "SCRIPT is a folder" 4 "$work/nothing" "board: can't read the script: $is_directory" "$work/loop" "$work/one" / 1

# Scripts that are none. Fields: the text, for printf; what is said of it.
while IFS='|' read -r text said; do
    # shellcheck disable=SC2059
    printf "$text" > "$work/text"
    race "the script $text" 1 "$work/nothing" "board: the script: $said" "$work/loop" "$work/one" "$work/text" 1
done << 'END'
T 1|line 1, column 4: the last line has no newline at its end, so the text may be cut off
T 1\nS 1 1\n|line 2, column 1: no steps in a script: each processor takes its own
T 0\n|line 1, column 3: a count of 0: leave the line out, or count from 1
T 01\n|line 1, column 3: 01 has leading zeros: leave them out
T\n|line 1, column 2: COUNT is missing: the form is T COUNT
T 1 \n|line 1, column 4: a space at the line's end
T  1\n|line 1, column 3: a second space: one stands between two fields
T 1\r\n|line 1, column 4: a carriage return: lines end with a newline alone (tr -d '\r' takes them out)
\n|line 1, column 1: an empty line: leave it out
t 1\n|line 1, column 1: t is written in upper case
R 4\n|line 1, column 4: COUNT is missing: the form is R LINE COUNT
R 256 1\n|line 1, column 3: 256 is too much: LINE is 0 to 255
R 4 4294967296\n|line 1, column 5: 4294967296 is too much: COUNT is 1 to 4294967295 (write two lines)
T 1000001\n|line 1, column 1: a script has at most 1000000 events, and this line makes more
T 999999\nR 4 1\nT 1\n|line 3, column 1: a script has at most 1000000 events, and this line makes more
R 0 1\n\nT 1\n|line 2, column 1: an empty line: leave it out
END
printf 'T 4\n' > "$work/text"
"$board" run "$work/loop" "$work/one" "$work/text" > "$work/out" 2> "$work/err"
check "a script as a journal" 1 "$work/nothing" \
    "board: the journal: line 1: expected \`board-journal 2 big\` or \`board-journal 2 little\` first, then lines \`S CPU COUNT\`, \`T COUNT\` and \`R LINE COUNT\`; it looks like a script" $?

# Writing fails.
journal=/dev/full
race "OUT is full" 4 "$work/nothing" "board: can't write the output: $is_full" "$work/loop" "$work/one" "$work/script" 5
journal=$work/journal
: > "$work/out"
"$board" race "$work/loop" "$work/one" "$work/nothing" 5 "$journal" > /dev/full 2> "$work/err"
check "race: standard output is full" 4 "$work/nothing" "board: can't write the output: $is_full" $?
records "standard output is full" "S 1 5"

# ---- memory

: > "$work/in"
report 1 0 80000004
cp "$work/report" "$work/wanted"
refuse_each "board race" 3 "board: out of memory" "$board" race "$work/loop" "$work/one" "$work/nothing" 1 "$journal"

# Threads that can't be started: the stacks of nine find no room where those of two do.
report 100 0 80000000
for count in one eight; do
    printf 'something else' > "$journal"
    (ulimit -v 60000; exec "$board" race "$work/loop" "$work/$count" "$work/nothing" 100 "$journal") > "$work/out" \
        2> "$work/err"
    got=$?
    if [ $count = one ]; then
        check "race: threads that can be started" 0 "$work/report" "" $got
        records "threads that can be started" "S 1 100"
    else
        check "race: threads that can't be started" 3 "$work/nothing" "board: out of memory" $got
        verdict "race: threads that can't be started: OUT" "$([ -e "$journal" ] && [ ! -s "$journal" ] ||
            echo "it isn't empty")"
    fi
done

summary
