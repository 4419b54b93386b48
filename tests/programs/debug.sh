#!/bin/bash
# The tests of `board debug`: tests/programs/debug.sh PROGRAM. Most are scenes (tests/programs/scenes.sh); here is what
# no scene can say.
. "$(dirname "$0")/check.sh"
. tests/programs/growths.sh

# debug NAME STATUS OUTPUT-FILE ERROR IMAGE CONFIG JOURNAL: runs `board debug` on the commands in $work/in.
debug() {
    timeout 300 "$board" debug "$5" "$6" "$7" < "$work/in" > "$work/out" 2> "$work/err"
    check "debug: $1" "$2" "$3" "$4" $?
}

# assembled NAME SOURCE: makes $work/image of a source.
assembled() {
    "$board" asm "$2" "$work/image" 2> "$work/err" || fail "debug: $1" "$(cat "$work/err")"
}

lay debug_five_words debug_long_run c_on_two_processors

# The page of an example (whose answers tests/programs/documents.sh compares) has the commands of its file.
sed -n 's/^> //p' examples/fault/README.md > "$work/in"
verdict "the document" "$(cmp "$work/in" examples/fault/fault.commands 2>&1)"

# Ten events of five words in a loop, of which the third is executed at 2 and 7. (The bytes of lines that only look like
# commands are written out here, where they can be seen.)
five=$laid/debug_five_words
cp $five/image.elf "$work/five"
config=$five/config.cfg
journal=$five/journal
printf '%b\n' 'quit ' ' quit' 'quit\r' 'quit\t' 'quit\0' '\0quit' '' ' ' '\t' '\r' '\0' 'next ' 'back\r' 'goto ' \
    'goto  1' \
    'goto\t1' 'goto 1 ' ' goto 1' 'goto 1\r' 'goto 1\0' 'break ' 'break  80000008' 'break 80000008 ' \
    'break 80000008\r' \
    'watch ' 'watch  80000008' 'watch 80000008\0' 'regs ' 'regs  1' 'regs 1 ' 'regs 1\r' 'mem ' 'mem  80000000' \
    'mem 80000000 ' 'mem 80000000\r' '\0377' '\0303\0251' '\0357\0273\0277next' > "$work/in"
sed 's/.*/unknown/' <(tr -cd '\n' < "$work/in") > "$work/wanted"
debug "lines that are no commands" 0 "$work/wanted" "" "$work/five" $config $journal
{ head -c 1000000 /dev/zero | tr '\0' 'x'; printf '\ngoto 3\ngoto %01000d\ngoto 1%01000d\nregs 1\n' 4 4; } > "$work/in"
printf '%s\n' unknown 'at 3' unknown unknown 'pc 8000000c' '$29 80010000' > "$work/wanted"
debug "long lines" 0 "$work/wanted" "" "$work/five" $config $journal

# What is wrong with the three files is said as `run` says it, and no command is done (so are the faults of scenes).
printf 'goto 1\nregs 1\n' > "$work/in"
for missing in 5 6 7; do
    arguments=("$work/five" "$config" "$journal")
    for ((i = missing - 5; i < 3; i++)); do arguments[i]=$work/nosuch$i; done
    debug "argument $((missing - 4)) is missing" 4 "$work/nothing" \
        "board: can't open $work/nosuch$((missing - 5)): $is_missing" "${arguments[@]}"
done
debug "CONFIG is a folder" 4 "$work/nothing" "board: can't read the configuration: $is_directory" "$work/five" / \
    $journal
debug "IMAGE is a folder" 4 "$work/nothing" "board: can't read the object file: $is_directory" / / /
debug "JOURNAL is a folder" 4 "$work/nothing" "board: can't read the journal: $is_directory" "$work/five" $config /
debug "JOURNAL is missing, IMAGE a folder" 4 "$work/nothing" "board: can't open $work/nosuch: $is_missing" / $config \
    "$work/nosuch"
debug "a source for IMAGE" 1 "$work/nothing" \
    "board: the object file: no ELF file: it doesn't begin with the bytes 7F 45 4C 46; it looks like assembler source, which \"board asm\" makes an object file of" \
    $five/source.s $config $journal
debug "a journal for CONFIG" 1 "$work/nothing" \
    "board: the configuration: line 1: found what no statement has here, expected one in the form of its kind; it looks like a journal" \
    "$work/five" $journal $config
debug "an object file for JOURNAL" 1 "$work/nothing" \
    "board: the journal: line 1: expected \`board-journal 2 big\` or \`board-journal 2 little\` first, then lines \`S CPU COUNT\`, \`T COUNT\` and \`R LINE COUNT\`; it looks like an object file" \
    "$work/five" $config "$work/five"
head -c 134217729 /dev/zero > "$work/long"
debug "a journal that is too long" 4 "$work/nothing" "board: the journal is longer than 134,217,728 bytes" \
    "$work/five" $config "$work/long"
rm "$work/long"

# Commands of as many bytes as an input may have, in a last line without a newline, and of one more.
{ printf 'goto 1\n'; head -c 134217721 /dev/zero; } > "$work/in"
printf 'at 1\nunknown\n' > "$work/wanted"
debug "as many bytes of commands as there may be" 0 "$work/wanted" "" "$work/five" $config $journal
echo >> "$work/in"
echo 'at 1' > "$work/wanted"
debug "one byte more" 4 "$work/wanted" "board: standard input is longer than 134,217,728 bytes" "$work/five" $config \
    $journal

# Commands that can't be read, and answers that can't be written.
"$board" debug "$work/five" $config $journal < / > "$work/out" 2> "$work/err"
check "debug: commands that can't be read" 4 "$work/nothing" "board: can't read standard input: $is_directory" $?
if [ -e /dev/full ]; then
    "$board" debug "$work/five" $config $journal < "$work/in" > /dev/full 2> "$work/err"
    status=$?
    : > "$work/out"
    check "debug: a full output" 4 "$work/nothing" "board: can't write the output: $is_full" $status
    printf 'quit\ngoto 1\n' | "$board" debug "$work/five" $config $journal > /dev/full 2> "$work/err"
    check "debug: no answer, and a full output" 0 "$work/nothing" "" $?
fi
mkfifo "$work/pipe"
exec 3<> "$work/pipe" 4> "$work/pipe" 3>&-
is_broken="$( (trap '' PIPE; echo x | LC_ALL=C cat 2>&1 >&4) | sed 's/.*: //') (os error 32)"
"$board" debug "$work/five" $config $journal < "$work/in" >&4 2> "$work/err"
check "debug: a pipe that nobody reads" 4 "$work/nothing" "board: can't write the output: $is_broken" $?
exec 4>&-

# A program asks: each answer is there before the next command is written. Its end is that of its input.
# asks NAME COMMAND ANSWER..: writes one command after the other, and waits for each one's answer, a line.
asks() {
    local name=$1 wrong="" answer reader writer pid
    shift
    coproc talk { exec timeout 60 "$board" debug "$work/five" $config $journal 2> "$work/err"; }
    pid=$talk_PID reader=${talk[0]} writer=${talk[1]}
    exec 5<&"$reader" 6>&"$writer"
    exec {reader}<&- {writer}>&-
    while [ $# -gt 0 ]; do
        (trap '' PIPE; printf '%s\n' "$1" >&6) 2> "$work/nowhere"
        answer=nothing
        IFS= read -r -t 50 -u 5 answer
        [ "$answer" = "$2" ] || wrong="$wrong; '$1' is answered by '$answer', wanted '$2'"
        shift 2
    done
    exec 6>&-
    wait "$pid"
    [ $? = 0 ] || wrong="$wrong; another status than 0"
    IFS= read -r -t 1 -u 5 answer && wrong="$wrong; one answer more: '$answer'"
    exec 5<&-
    verdict "debug: $name" "$wrong"
}
asks "one command at a time" 'break 80000008' ok next 'at 2' next 'at 7' next none 'mem 8000000f' fc back \
    'at 2' stop unknown \
    '' unknown 'goto 11' 'past 10' 'regs 2' none 'goto 10' 'at 10' back 'at 7'

# After `quit` nothing is awaited: here the input stays open.
mkfifo "$work/open"
exec 3<> "$work/open"
echo quit >&3
timeout 50 "$board" debug "$work/five" $config $journal <&3 > "$work/out" 2> "$work/err"
check "debug: quit, and an input that stays open" 0 "$work/nothing" "" $?
exec 3>&-

# shown ADDRESS ADDRESS < POSITIONS: for each position a line of six columns: the position, where processors 1 and 2 are
# (`none` where that is nowhere), the bytes at the two addresses, and all registers of both.
shown() {
    while read -r at; do
        printf 'goto %s\nregs 1\nregs 2\nmem %s\nmem %s\n' "$at" "$1" "$2"
    done > "$work/in"
    timeout 300 "$board" debug "$work/image" "$config" "$work/journal" < "$work/in" 2> "$work/err" | awk '
        function flush() { if (at != "") print at, pc[1], pc[2], bytes, all }
        $1 == "at" { flush(); at = $2; k = 0; bytes = all = ""; next }
        $1 == "pc" { pc[++k] = $2; all = all ":"; next }
        $1 == "none" { pc[++k] = "none"; all = all ":"; next }
        NF == 1 { bytes = bytes (bytes == "" ? "" : " ") $1; next }
        { all = all "," $1 "=" $2 }
        END { flush() }'
}

# same NAME WANTED GOT: compares two files.
same() {
    local wrong=""
    [ -s "$2" ] || wrong="; nothing is wanted"
    cmp -s "$2" "$3" || wrong="$wrong; $(diff "$2" "$3" | head -n 5)"
    verdict "debug: $1" "$wrong"
}

# events JOURNAL: its events, one a line.
events() {
    awk 'NR > 1 { count = $NF; sub(/ [0-9]+$/, ""); for (i = 0; i < count; i++) print }' "$1"
}

# cut_to COUNT JOURNAL: the journal of its first events.
cut_to() {
    awk -v left="$1" 'NR == 1 { print; next } left > 0 { if ($NF > left) $NF = left; left -= $NF; print }' "$2"
}

# where_run_is COUNT: where processors 1 and 2 are after so many events, as `run` says it, in the form of `shown`.
where_run_is() {
    cut_to "$1" "$work/journal" > "$work/front"
    "$board" run "$work/image" "$config" "$work/front" < /dev/null | awk -v at="$1" '
        BEGIN { pc[1] = pc[2] = "none" }
        $1 == "cpu" && $(NF - 1) == "pc" { pc[$2] = $NF }
        $1 == "console" { print at, pc[1], pc[2]; exit }'
}

# as_run NAME STEP ADDRESS ADDRESS: at each STEPth position up to $last `debug` and `run` say the same.
as_run() {
    for ((at = 0; at <= last; at += $2)); do where_run_is $at; done > "$work/wanted"
    seq 0 "$2" "$last" | shown "$3" "$4" | cut -d ' ' -f 1-3 > "$work/out"
    same "$1 as by run" "$work/wanted" "$work/out"
}

# Two tasks on two processors count under one lock, and wait for ticks; see the source. 900 runs, by a sequence of
# numbers that look like random ones.
assembled counters tests/data/counters/source.s
config=tests/data/counters/config.cfg
number=1
{
    echo 'board-journal 1'
    for ((i = 0; i < 900; i++)); do
        number=$(((number * 1103515245 + 12345) % 2147483648))
        count=$(((number >> 16) / 5 % 29 + 1))
        case $(((number >> 16) % 5)) in
            0 | 2) echo "S 1 $count" ;;
            1 | 3) echo "S 2 $count" ;;
            4) echo "T 1" ;;
        esac
    done
} > "$work/journal"
events "$work/journal" > "$work/events"
last=$(wc -l < "$work/events")
seq 0 "$last" | shown 80000053 80000063 > "$work/ascending"
seq 0 "$last" > "$work/wanted"
cut -d ' ' -f 1 "$work/ascending" > "$work/out"
same "each position" "$work/wanted" "$work/out"
# (In steps of 4,099, a prime number that doesn't divide the number of positions: each comes once, and the next one lies
# far before it or after it.)
awk -v last="$last" 'BEGIN { for (i = 0; i <= last; i++) print i * 4099 % (last + 1) }' \
    | shown 80000053 80000063 | sort -n > "$work/mixed"
same "positions in another order" "$work/ascending" "$work/mixed"

as_run "two tasks" 53 80000053 80000063

# The stops, by the events and what is shown at each position: a step of a processor that is at a break, and a byte that
# is another one at the next position. (No line has a handler here, so a step of a processor that is somewhere
# executes.)
# stops BREAK COLUMN: the stops of a break at an address, `-` for none, and of the byte in a column of `shown`, 0 for
# none.
stops() {
    awk -v mark="$1" -v column="$2" '
        NR == FNR { event[NR - 1] = $1; cpu[NR - 1] = $2; next }
        FNR > 1 && (event[at] == "S" && pc[cpu[at]] "" == mark "" || column && byte "" != $column "") { print at }
        { at = $1; pc[1] = $2; pc[2] = $3; byte = $column }' "$work/events" "$work/ascending"
}
# stops_are NAME BREAK WATCH COLUMN: `next` goes to these from 0, and `back` from the end, one after the other. COLUMN
# is that of the watched byte.
stops_are() {
    local front=() count
    [ "$2" = - ] || front+=("break $2")
    [ "$3" = - ] || front+=("watch $3")
    stops "$2" "$4" > "$work/stops"
    count=$(wc -l < "$work/stops")
    {
        printf '%s\n' "${front[@]}"
        for ((i = 0; i <= count; i++)); do echo next; done
        echo "goto $last"
        for ((i = 0; i <= count; i++)); do echo back; done
    } > "$work/in"
    {
        for ((i = 0; i < ${#front[@]}; i++)); do echo ok; done
        awk '$1 > 0 { print "at", $1 }' "$work/stops"
        echo none
        if [ "$(head -n 1 "$work/stops")" = 0 ]; then echo none; fi
        echo "at $last"
        awk '{ print "at", $1 }' "$work/stops" | tac
        echo none
    } > "$work/wanted"
    debug "$1, $count stops" 0 "$work/wanted" "" "$work/image" $config "$work/journal"
    [ "$count" -gt 9 ] || fail "debug: $1" "only $count stops"
}
stops_are "the stops of a break in both tasks" 80000014 - 0
stops_are "the stops of a break at a call" 80000044 - 0
stops_are "the stops of a watched lock" - 80000053 4
stops_are "the stops of a watched count" - 80000063 5
stops_are "the stops of a break and a watch" 80000008 80000063 5

# Code of a C compiler on two processors.
folder=$laid/c_on_two_processors
cp $folder/image.elf "$work/image"
cp $folder/journal "$work/journal"
config=$folder/config.cfg
last=$(sed -n 's/^events //p' $folder/report)
as_run "C on two processors" 11 80000000 80000001

# The largest RAM, and its ends; in little more memory than a few copies of it take.
sed 's/0x10000)/0x1000000)/' $five/config.cfg > "$work/large.cfg"
printf '%s\n' 'watch 80ffffff' 'goto 9' back 'mem 80ffffff' 'mem 81000000' 'regs 1' > "$work/in"
printf '%s\n' ok 'at 9' none 00 outside 'pc 80000010' '$29 81000000' > "$work/wanted"
debug "16 MiB of RAM" 0 "$work/wanted" "" "$work/five" "$work/large.cfg" $five/journal
(ulimit -v 100000; exec "$board" debug "$work/five" "$work/large.cfg" $five/journal) < "$work/in" > "$work/out" \
    2> "$work/err"
check "debug: 16 MiB of RAM in 100,000 KiB" 0 "$work/wanted" "" $?

# Snapshots share the pages that they have alike, and have no room in their tables: of a board that writes to all of 16
# MiB and has 255 objects of each kind, 97 of them would take 1.8 GiB if each were a whole copy.
printf '%s\n' 'lui $t0, 0x8000' 'lui $t2, 0x8100' 'ori $t1, $t0, 0x1000' 'more: sw $t1, 0($t1)' \
    'addiu $t1, $t1, 0x1000' \
    'bne $t1, $t2, more' nop 'b more' 'ori $t1, $t0, 0x1000' > "$work/fill.s"
assembled "all of 16 MiB" "$work/fill.s"
{
    echo 'BOARD(1, 0x1000000); CRE_TSK(1, {TA_ACT, 0, 0x80000000, 1, 256, NULL});'
    for n in $(seq 255); do
        echo "CRE_SEM($n, {TA_TFIFO, 1, 1}); CRE_FLG($n, {TA_TFIFO, 0}); CRE_DTQ($n, {TA_TFIFO, 256, NULL});"
    done
} > "$work/large.cfg"
printf '%s\n' 'board-journal 1' 'S 1 400000' > "$work/journal"
printf '%s\n' 'goto 400000' 'goto 399999' 'goto 3' 'regs 1' > "$work/in"
printf '%s\n' 'at 400000' 'at 399999' 'at 3' 'pc 8000000c' '$8 80000000' '$9 80001000' '$10 81000000' '$29 81000000' \
    > "$work/wanted"
(ulimit -v 160000; exec "$board" debug "$work/image" "$work/large.cfg" "$work/journal") < "$work/in" > "$work/out" \
    2> "$work/err"
check "debug: 97 snapshots in 160,000 KiB" 0 "$work/wanted" "" $?

# Moves over a long journal, far apart: without snapshots each would do 2,500,000 events. The limit is one of processor
# seconds, so it doesn't depend on how busy the machine is.
long=$laid/debug_long_run
cp $long/image.elf "$work/image"
awk 'BEGIN { for (i = 0; i < 5000; i++) print "goto " i * 2499997 % 5000001 }' > "$work/in"
sed 's/goto/at/' "$work/in" > "$work/wanted"
(ulimit -t 30; exec "$board" debug "$work/image" $long/config.cfg $long/journal) < "$work/in" > "$work/out" \
    2> "$work/err"
check "debug: 5,000 far moves in 30 processor seconds" 0 "$work/wanted" "" $?

# Moves to positions that have a snapshot (4,096, 8,192, 12,288: 1, 2 and 3 modulo 5), from behind and from before it,
# and on from there.
printf '%s\n' 'break 80000008' 'goto 13000' 'goto 8192' 'regs 1' back 'goto 8192' next 'goto 4096' 'regs 1' next \
    'goto 0' 'goto 12288' 'regs 1' back 'goto 0' 'goto 8192' 'regs 1' next > "$work/in"
printf '%s\n' ok 'at 13000' 'at 8192' 'pc 80000008' '$29 80010000' 'at 8187' 'at 8192' 'at 8197' 'at 4096' \
    'pc 80000004' \
    '$29 80010000' 'at 4097' 'at 0' 'at 12288' 'pc 8000000c' '$29 80010000' 'at 12287' 'at 0' 'at 8192' 'pc 80000008' \
    '$29 80010000' 'at 8197' > "$work/wanted"
debug "moves to positions that have a snapshot" 0 "$work/wanted" "" "$work/image" $long/config.cfg $long/journal

# On a terminal the commands are listed beside the answer to what is none, and elsewhere they aren't.
if have_terminal "debug: help on a terminal"; then
    tests/programs/terminal "typed help" "$work/out" \
        "$board" debug "$work/image" $long/config.cfg $long/journal > "$work/shown"
    got=$?
    wrong=$([ $got = 0 ] || echo "; status $got")
    [ "$(cat "$work/out")" = unknown ] || wrong="$wrong; the output is $(head -c 600 "$work/out")"
    grep -q 'commands: goto N, next, back, ' "$work/shown" || wrong="$wrong; it shows $(head -c 600 "$work/shown")"
    verdict "debug: help on a terminal" "$wrong"
fi
echo help > "$work/in"
echo unknown > "$work/wanted"
debug "help where no terminal is" 0 "$work/wanted" "" "$work/image" $long/config.cfg $long/journal

# Memory, also where snapshots are taken and played from.
printf '%s\n' 'break 80000008' next 'regs 1' 'watch 80000000' 'goto 10' back 'mem 80000000' 'goto 5000001' stop \
    'goto 9000' next back 'goto 4097' back 'goto 8200' back > "$work/in"
printf '%s\n' ok 'at 2' 'pc 80000008' '$29 80010000' ok 'at 10' 'at 7' 00 'past 5000000' unknown \
    'at 9000' 'at 9002' 'at 8997' 'at 4097' 'at 4092' 'at 8200' 'at 8197' > "$work/wanted"
refuse_each debug 3 "board: out of memory" "$board" debug "$work/image" $long/config.cfg $long/journal

summary
