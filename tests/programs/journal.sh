#!/bin/bash
# The tests of `board journal`, of --version, and of `-`: tests/programs/journal.sh PROGRAM.
. "$(dirname "$0")/check.sh"

# makes NAME WANTED ARGUMENT..: a journal, whose lines after the first one are WANTED, with commas between them.
makes() {
    local name=$1
    { echo "board-journal 2 ${order:-big}"; printf '%s' "${2:+$2,}" | tr ',' '\n'; } > "$work/wanted"
    shift 2
    "$board" journal "$@" < /dev/null > "$work/out" 2> "$work/err"
    check "journal: $name" 0 "$work/wanted" "" $?
}
makes "no events" "" 2 0
makes "in turns" "S 1 1,S 2 1,S 3 1,S 1 1" 3 4
makes "two steps each" "S 1 2,S 2 2,S 1 1" 2 5 --turn 2
makes "a turn of 0 is one of 1" "S 1 1,S 2 1" 2 2 --turn 0
makes "one processor" "S 1 1000000" 1 1000000
makes "ticks" "S 1 1,S 2 1,T 1,S 1 1,S 2 1,T 1" 2 6 --tick-every 3
makes "ticks alone" "T 3" 2 3 --tick-every 1
makes "raises" "R 4 1,S 1 1,R 5 1,S 2 1" 2 4 --raise 4@1,5@3
makes "a raise comes before a tick" "S 1 1,R 31 1,S 2 1,T 1" 2 4 --tick-every 2 --raise 31@2
makes "a raise past the end" "S 1 1" 2 1 --raise 0@2
makes "one weight that isn't 0" "S 2 50" 2 50 --random 1 --weights 0,1 --switch 1000
makes "no changes of priorities" "S 2 20" 2 20 --random 2 --pct 0
makes "a big-endian board" "S 1 1,S 2 1" 2 2 --order big
order=little makes "a little-endian board" "S 1 1,S 2 1" 2 2 --order little
# The ends of what each option takes, and the last event that a journal can have.
makes "eight processors" "S 1 1,S 2 1,S 3 1,S 4 1,S 5 1,S 6 1,S 7 1,S 8 1" 8 8
makes "the longest turn" "S 1 4" 4 4 --turn 4294967295
makes "no ticks" "S 1 1,S 2 1,S 1 1" 2 3 --tick-every 0
makes "the longest interval" "S 1 1,S 2 1,S 1 1" 2 3 --tick-every 4294967295
makes "the first and the last line" "R 0 1,R 255 1" 2 2 --raise 0@1,255@2
makes "a raise past the end, as late as may be" "S 1 1,S 2 1" 2 2 --raise 4@4294967295
makes "a raise as the last event" "S 1 999999,R 4 1" 1 1000000 --raise 4@1000000
makes "the last weight alone, as great as may be" "S 2 3" 2 3 --random 1 --weights 0,1000000
makes "the greatest weights" "S 1 3" 1 3 --random 1 --weights 1000000
makes "the least seed" "S 1 3" 1 3 --random 0
makes "the greatest seed" "S 1 3" 1 3 --random 4294967295
makes "a chance of none" "S 1 3" 1 3 --random 1 --switch 0
makes "a chance of all" "S 1 3" 1 3 --random 1 --switch 1000
makes "the most changes" "S 1 3" 1 3 --random 1 --pct 1000
makes "changes without an event" "" 2 0 --random 1 --pct 3
# Long ones: as many lines as `run` takes, and counts past 4,194,304 in a line.
makes "a long run" "S 1 30000000" 1 30000000
makes "ticks in a long one" "S 1 9999999,T 1,S 1 5000001,S 2 4999998,T 1,S 2 5000000" 2 25000000 --turn 15000000 \
    --tick-every 10000000 --raise 4@30000000
makes "a raise late in a long one" "S 1 19999999,R 4 1,S 1 1" 1 20000001 --raise 4@20000000
"$board" journal 2 4194304 > "$work/longest"
verdict "journal: as many lines as run takes" "$([ "$(wc -l < "$work/longest")" = 4194305 ] || wc -l < "$work/longest")"
"$board" asm examples/hello/hello.s "$work/hello"
"$board" run "$work/hello" examples/hello/hello.cfg "$work/longest" > "$work/out" 2> "$work/err"
verdict "journal: run takes so many lines" "$(grep -qx 'events 4194304' "$work/out" ||
    head -n 2 "$work/out" "$work/err")"
"$board" journal 2 4194305 > "$work/out" 2> "$work/err"
check "journal: one line more" 2 "$work/nothing" "board: the journal needs more than 4194304 runs" $?
# Journals that are drawn, as tests/model/schedules.py has them.
makes "drawn" "S 2 3,S 1 2,S 2 4,T 1,S 2 1,S 1 1,S 2 4,S 1 1,S 2 2,T 1,S 1 3,S 2 1,S 1 1,S 2 4,T 1" \
    2 30 --random 7 --tick-every 10
makes "drawn by weights" "S 1 4,S 2 5,T 1,S 2 2,S 1 1,S 2 2,S 1 4,T 1,S 1 9,T 1,S 1 2,S 2 2,S 1 5,T 1" \
    2 40 --random 7 --switch 300 --weights 3,1 --tick-every 10
makes "three processors by priorities" "S 1 5,S 3 3,S 2 2,S 1 6,S 2 3,T 1,S 2 19,T 1,S 2 19,T 1" \
    3 60 --random 3 --pct 5 --tick-every 20
makes "four processors by priorities" "S 1 5,S 4 3,S 3 2,S 2 6,S 1 3,T 1,S 1 19,T 1,S 1 19,T 1" \
    4 60 --random 3 --pct 5 --tick-every 20
makes "turns between ticks" "S 1 4,S 2 4,S 3 1,T 1,S 3 3,S 1 4,S 2 2,T 1,S 2 2,S 3 4,S 1 3,T 1" \
    3 30 --turn 4 --tick-every 10
# The same options, given to the program and to the model.
if have python3 "journals beside the model"; then
    while read -r options; do
        # shellcheck disable=SC2086
        "$board" journal $options > "$work/out" 2> "$work/err"
        got=$?
        # shellcheck disable=SC2086
        wrong=$(tests/model/schedules.py $options 2>&1 > "$work/wanted") || wrong="$wrong; the model failed"
        wrong="$wrong$(differs 0 "$work/wanted" $got)"
        verdict "journal beside the model: $options" "$wrong"
    done < tests/data/schedules.table
fi

# refuses NAME WHAT ARGUMENT..: a line with status 2.
refuses() {
    local name=$1 what=$2
    shift 2
    "$board" journal "$@" < /dev/null > "$work/out" 2> "$work/err"
    check "journal: $name" 2 "$work/nothing" "board: $what" $?
}
raise="--raise takes LINE@EVENT, with commas between several, as 4@10,4@20; a line is 0 to 255, an event 1 to 4294967295, each once"
weights="--weights takes a number from 0 to 1000000 for each processor, with commas between them, as 3,1,1, and not all are 0"
no_seed="--switch, --weights and --pct are for a journal that is drawn: give --random SEED"
both="--turn doesn't go with --random, nor --pct with --switch and --weights"
refuses "no processor" "CPUS is 1 to 8" 0 1
refuses "nine processors" "CPUS is 1 to 8" 9 1
refuses "a middle-endian board" "--order is big or little" 2 9 --order middle
for wrong in 4 4@ @4 4@0 256@1 4@1,4@1 4@1,,4@2 04@1 4@4294967296 ''; do
    refuses "--raise '$wrong'" "$raise" 2 9 --raise "$wrong"
done
for wrong in 1 1,1,1 0,0 1,x 1,1000001 ,1; do
    refuses "--weights $wrong" "$weights" 2 9 --random 1 --weights "$wrong"
done
refuses "--switch 1001" "--switch is 0 to 1000, in a thousand" 2 9 --random 1 --switch 1001
refuses "--pct 1001" "--pct is 0 to 1000 changes" 2 9 --random 1 --pct 1001
for option in "--switch 1" "--weights 1,1" "--pct 1"; do
    # shellcheck disable=SC2086
    refuses "$option without a seed" "$no_seed" 2 9 $option
done
refuses "turns that are drawn" "$both" 2 9 --random 1 --turn 1
refuses "priorities with weights" "$both" 2 9 --random 1 --pct 1 --weights 1,1
refuses "priorities with a chance" "$both" 2 9 --random 1 --pct 1 --switch 1
refuses "turns by priorities" "$both" 2 9 --turn 1 --random 1 --pct 1
refuses "turns with a chance" "$no_seed" 2 9 --turn 1 --switch 1
refuses "turns with weights" "$no_seed" 2 9 --turn 1 --weights 1,1
refuses "turns with changes" "$no_seed" 2 9 --turn 1 --pct 1

# Journals that are drawn: as many events as asked for, all of them steps of the processors, the same each time, and
# another for another seed.
events() {
    awk 'NR > 1 { n += $NF } END { print n + 0 }' "$1"
}
for options in "" "--switch 1000" "--switch 10 --weights 3,1,1" "--pct 0" "--pct 5" "--pct 1000"; do
    for seed in 1 2 3; do
        # shellcheck disable=SC2086
        "$board" journal 3 2000 --random $seed $options --tick-every 100 --raise 4@7 > "$work/one"
        # shellcheck disable=SC2086
        "$board" journal 3 2000 --random $seed $options --tick-every 100 --raise 4@7 > "$work/two"
        wrong=$(cmp "$work/one" "$work/two")
        [ "$(events "$work/one")" = 2000 ] || wrong="$wrong; $(events "$work/one") events"
        [ "$(grep -c '^T 1$' "$work/one")" = 20 ] || wrong="$wrong; other ticks"
        [ "$(grep -c '^R' "$work/one")" = 1 ] || wrong="$wrong; other raises"
        grep -v -x -E 'board-journal 2 big|S [123] [0-9]+|T 1|R 4 1' "$work/one" > "$work/others"
        [ ! -s "$work/others" ] || wrong="$wrong; other lines: $(head -n 2 "$work/others")"
        verdict "journal: seed $seed $options" "$wrong"
        cp "$work/one" "$work/seed$seed"
    done
    [ "$options" = "--pct 0" ] || verdict "journal: other seeds $options" \
        "$(cmp -s "$work/seed1" "$work/seed2" && cmp -s "$work/seed2" "$work/seed3" && echo "all are the same")"
done

# How the processors share the steps. shares NAME LEAST MOST ARGUMENT..: steps of processor 1 of 10,000.
shares() {
    local name=$1 least=$2 most=$3 got
    shift 3
    got=$("$board" journal 2 10000 "$@" | awk '$1 == "S" && $2 == 1 { n += $3 } END { print n + 0 }')
    verdict "journal: $name" "$([ "$got" -ge "$least" ] && [ "$got" -le "$most" ] || echo "$got steps of processor 1")"
}
shares "all alike" 4500 5500 --random 1 --switch 1000
shares "three to one" 7000 8000 --random 1 --switch 1000 --weights 3,1
"$board" journal 8 10000 --random 4 --pct 6 | awk '$1 == "S"' > "$work/steps"
verdict "journal: at most six changes" "$([ "$(wc -l < "$work/steps")" -le 7 ] ||
    echo "$(wc -l < "$work/steps") stretches")"

if [ -e /dev/full ]; then
    "$board" journal 2 9 > /dev/full 2> "$work/err"
    got=$?
    : > "$work/out"
    check "journal: a full output" 4 "$work/nothing" \
        "board: can't write the output: No space left on device (os error 28)" $got
fi

# ---- --version

# The kit that it names is the one that built the program of dist/.
read -r kit _ < dist/kit
printf 'board 1.0 (%s)\n' "$kit" > "$work/wanted"
"$board" --version > "$work/out" 2> "$work/err"
check "--version" 0 "$work/wanted" "" $?
"$board" -V > "$work/out" 2> "$work/err"
check "-V" 0 "$work/wanted" "" $?

# ---- - for standard input

example=examples/hello/hello
"$board" asm $example.s "$work/image"
"$board" asm - "$work/again" < $example.s > "$work/out" 2> "$work/err"
check "- for SOURCE" 0 "$work/nothing" "" $?
verdict "- for SOURCE: OUT" "$(cmp "$work/image" "$work/again")"
"$board" run - $example.cfg $example.journal < "$work/image" > "$work/out" 2> "$work/err"
check "- for IMAGE" 0 $example.report "" $?
"$board" run "$work/image" - $example.journal < $example.cfg > "$work/out" 2> "$work/err"
check "- for CONFIG" 0 $example.report "" $?
# shellcheck disable=SC2002
cat $example.journal | "$board" run "$work/image" $example.cfg - > "$work/out" 2> "$work/err"
check "- for JOURNAL, by a pipe" 0 $example.report "" $?
"$board" journal 1 40 | "$board" run "$work/image" $example.cfg - > "$work/out" 2> "$work/err"
check "a journal that is made, by a pipe" 0 $example.report "" $?
"$board" run - - $example.journal < "$work/image" > "$work/out" 2> "$work/err"
check "- twice" 2 "$work/nothing" \
    "board: several arguments are -, standard input, which is read once: name a file for all but one" $?

# ---- many schedules

examples/many_schedules/hunt "$board" 1 40 > "$work/out" 2> "$work/err"
got=$?
wrong=
[ $got = 0 ] || wrong="status $got; $(head -c 300 "$work/err")"
grep -qxE '[1-9][0-9]* of 40 journals lose an addition' "$work/out" || wrong="$wrong; $(head -n 1 "$work/out")"
grep -qx 'board-journal 2 big' "$work/out" || wrong="$wrong; no journal is shown"
verdict "many schedules" "$wrong"

summary
