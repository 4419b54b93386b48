#!/bin/bash
# How far a long command is, on a terminal, and how Ctrl-C ends it: tests/programs/progress.sh PROGRAM.
. "$(dirname "$0")/check.sh"
have_terminal "progress" || { summary; exit; }
printf 'main: addiu $t0, $t0, 1\nj main\nnop\n' > "$work/source"
echo 'BOARD(1, 0x10000); CRE_TSK(1, {TA_ACT, 0, main, 1, 256, NULL});' > "$work/config"
printf 'board-journal 1\nS 1 30\n' > "$work/short"
printf 'board-journal 1\nS 1 100000000\n' > "$work/traced"
printf 'board-journal 1\nS 1 4000000000\nS 1 4000000000\nS 1 4000000000\n' > "$work/endless"
"$board" asm "$work/source" "$work/image"
boot=("$work/image" "$work/config")
line='(\\r[0-9]+ of [0-9]+ events \([0-9]+ %\)\\x1b\[K)+'
emptied='\\r\\x1b\[K'

# The file that a command reads as its standard input.
input=/dev/null

# on_terminal STATUS WHEN PATTERN COMMAND ARGUMENT..: what is wrong with a command on a terminal, which shows this.
on_terminal() {
    local wanted=$1 when=$2 pattern=$3 got
    shift 3
    # shellcheck disable=SC2016
    tests/programs/terminal "$when" "$work/out" /bin/sh -c 'exec "$@" < "$0"' "$input" "$board" "$@" > "$work/shown"
    got=$?
    [ $got = "$wanted" ] || echo -n "; status $got, wanted $wanted"
    grep -qE "^b'$pattern'\$" "$work/shown" || echo -n "; the terminal shows $(head -c 600 "$work/shown")"
}

# without_terminal COMMAND ARGUMENT..: what is wrong with the command without a terminal: another output, or something
# on standard error.
without_terminal() {
    "$board" "$@" < "$input" > "$work/plain" 2> "$work/err"
    cmp -s "$work/out" "$work/plain" || echo -n "; another output than without a terminal"
    [ -s "$work/err" ] && echo -n "; without a terminal standard error is $(head -c 600 "$work/err")"
}

# shows NAME STATUS WHEN PATTERN COMMAND ARGUMENT..: runs a command on a terminal, which shows this. Where it ends by
# itself, its output is that of a run without one, where nothing is shown.
shows() {
    local name=$1 when=$3 wrong
    shift
    wrong=$(on_terminal "$@")
    shift 3
    [ "$when" = never ] && wrong="$wrong$(without_terminal "$@")"
    verdict "progress: $name" "$wrong"
}

# shows_long NAME COMMAND ARGUMENT..: runs a command on a terminal under the journal $work/long, which gets longer until
# it takes so long that it is shown how far it is. Without a terminal nothing is shown, and the output is the same. What
# `debug` reads leads to the journal's end.
shows_long() {
    local name=$1 wrong events
    shift
    for events in 100000000 300000000 800000000 2000000000 5000000000; do
        printf 'board-journal 1\nS 1 %s\n' $events > "$work/long"
        moves "goto $events" "regs 1"
        wrong=$(on_terminal 0 never "$line$emptied" "$@")
        [ "$(cat "$work/shown")" = "b''" ] || break
    done
    verdict "progress: $name" "$wrong$(without_terminal "$@")"
}

# moves COMMAND..: what `debug` reads.
moves() {
    printf '%s\n' "$@" > "$work/moves"
    input=$work/moves
}

shows "a short run" 0 never "" run "${boot[@]}" "$work/short"
shows_long "a long trace" trace "${boot[@]}" "$work/long" --summary
shows_long "a long run" run "${boot[@]}" "$work/long"
shows "Ctrl-C in a run" 130 shown "$line.*" run "${boot[@]}" "$work/endless"
shows "Ctrl-C in a trace" 130 shown "$line.*" trace "${boot[@]}" "$work/endless"
shows "Ctrl-C before a trace's first event" 130 shown "$line.*" trace "${boot[@]}" "$work/endless" --from 12000000000

# ---- debug: each move for itself

moves "goto 30" "back" "goto 5" "next" "regs 1"
shows "short moves" 0 never "" debug "${boot[@]}" "$work/short"
moves "goto 30" "goto 5" "regs 1"
shows "short moves of a long journal" 0 never "" debug "${boot[@]}" "$work/long"
shows_long "a long move" debug "${boot[@]}" "$work/long"
# answered PATTERN ANSWER..: what is wrong with moves on a terminal, which shows this; these are all answers.
answered() {
    on_terminal 0 never "$1" debug "${boot[@]}" "$work/traced"
    printf '%s\n' "${@:2}" | cmp -s - "$work/out" || echo -n "; the answers are $(head -c 600 "$work/out")"
}
moves "break 80001000" "next"
verdict "progress: a long search" "$(answered "$line$emptied" ok none)"
moves "watch 80001000" "goto 100000000" "back"
verdict "progress: a long search back" "$(answered "$line$emptied($line$emptied)?" ok "at 100000000" none)"
moves "goto 12000000000"
shows "Ctrl-C in a move" 130 shown "$line.*" debug "${boot[@]}" "$work/endless"
moves "break 80001000" "next"
shows "Ctrl-C in a search" 130 shown "$line.*" debug "${boot[@]}" "$work/endless"

# A move is as long as it takes; how long its command was waited for doesn't count.
mkfifo "$work/pipe"
{ sleep 1.5; echo "goto 10000000"; } > "$work/pipe" &
input=$work/pipe
verdict "progress: a short move after a long wait" "$(on_terminal 0 never "" debug "${boot[@]}" "$work/long")"
wait
input=/dev/null

# ---- explore: how many schedules were tried

"$board" asm examples/explore/philosophers_right.s "$work/dining"
shows "Ctrl-C in a search" 130 shown '(\\r[0-9]+ schedules tried, none fails so far\\x1b\[K)+.*' \
    explore "$work/dining" examples/explore/philosophers.cfg --preemptions 3 --memory 0

# By lazy schedules it is told how many places were gone through. Two tasks that count come to new ones for ever.
printf '%s\n' 'count: .word 0' 'main: lui $s0, %hi(count)' 'again: lw $t0, %lo(count)($s0)' 'addiu $t0, $t0, 1' \
    'j again' 'sw $t0, %lo(count)($s0)' > "$work/source"
"$board" asm "$work/source" "$work/counting"
echo 'BOARD(2, 0x10000);' > "$work/both"
for cpu in 1 2; do
    echo "CLASS(TCL_$cpu) { CRE_TSK($cpu, {TA_ACT, 0, main, 1, 256, NULL}); }"
done >> "$work/both"
shows "Ctrl-C in a search by lazy schedules" 130 shown \
    '(\\r[0-9]+ places gone through, none fails so far\\x1b\[K)+.*' \
    explore "$work/counting" "$work/both" --events 1000000 --lazy 4000000000

# ---- race: stores take the longest, since no lease does them; the journal has room for a run for each event

{
    echo 'main: lui $t0, 0x8000'
    yes '      sw $zero, 0x1000($t0)' | head -n 100
    printf '      j main\n      nop\n'
} > "$work/source"
"$board" asm "$work/source" "$work/storing"
echo 'BOARD(4, 0x10000);' > "$work/four"
for cpu in 1 2 3 4; do
    echo "CLASS(TCL_$cpu) { CRE_TSK($cpu, {TA_ACT, 0, main, 1, 256, NULL}); }"
done >> "$work/four"
echo 'T 100000' > "$work/ticks"
race=(race "$work/storing" "$work/four" "$work/ticks")
shows "a short race" 0 never "" "${race[@]}" 30 "$work/raced"
began=${EPOCHREALTIME/[.,]/}
"$board" "${race[@]}" 1000000 "$work/raced" > "$work/out"
if [ $((${EPOCHREALTIME/[.,]/} - began)) -ge 1500000 ]; then
    shows "a long race" 0 never "$line$emptied(board: the processors hardly took.*)?" "${race[@]}" 1000000 "$work/raced"
    shows "Ctrl-C in a race" 130 shown "$line.*" "${race[@]}" 1000000 "$work/raced"
else
    skip "progress: a long race" "a machine on which the longest race takes 1.5 seconds"
fi

# ---- race: processors that hardly take turns, since the host has one processor for all of them

# on_one_processor COMMAND ARGUMENT..: runs a command on one processor of the host.
cat > "$work/on_one_processor" << 'END'
import os
import sys

os.sched_setaffinity(0, [min(os.sched_getaffinity(0))])
os.execvp(sys.argv[1], sys.argv[1:])
END

# says_of_turns CONFIG QUOTA: what `race` of an endless loop says on a terminal, and what is wrong without one.
says_of_turns() {
    tests/programs/terminal never "$work/out" "$(command -v python3)" "$work/on_one_processor" \
        "$board" race "$work/loop" "$1" "$work/nothing" "$2" "$work/raced" > "$work/shown"
    sed "s/^b['\"]//; s/['\"]\$//" "$work/shown"
    "$board" race "$work/loop" "$1" "$work/nothing" "$2" "$work/raced" > "$work/plain" 2> "$work/err"
    [ -s "$work/err" ] && echo -n "; without a terminal standard error is $(head -c 600 "$work/err")"
}

printf 'main: b main\nnop\n' > "$work/source"
"$board" asm "$work/source" "$work/loop"
echo 'BOARD(1, 0x10000); CRE_TSK(1, {TA_ACT, 0, main, 1, 256, NULL});' > "$work/one"
{ echo 'BOARD(2, 0x10000);'; sed -n 2,3p "$work/four"; } > "$work/two"
few='board: the processors hardly took turns \(20000 steps in [0-9]+ runs, 0 of them did nothing\): race again, with'
few="$few a larger QUOTA, or"
few="$few draw turns by \`board journal --random\`"
says_of_turns "$work/two" 10000 > "$work/said"
verdict "progress: two processors that hardly take turns" \
    "$(grep -qE "^$few\\\\r\\\\n\$" "$work/said" || echo "it says $(head -c 600 "$work/said")")"
printf 'main: addiu $v0, $0, 3\n syscall\n' > "$work/ends.s"
"$board" asm "$work/ends.s" "$work/loop"
says_of_turns "$work/two" 10000 > "$work/said"
verdict "progress: processors that do nothing" \
    "$(grep -qE '\(20000 steps in [0-9]+ runs, 19996 of them did nothing\)' "$work/said" || head -c 600 "$work/said")"
"$board" asm "$work/source" "$work/loop"
verdict "progress: fewer than 10,000 steps" "$(says_of_turns "$work/two" 4999)"
verdict "progress: one processor" "$(says_of_turns "$work/one" 10000)"

summary
