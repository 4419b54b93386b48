#!/bin/bash
# What the kit for C makes of what `board` prints, and what it judges by itself: tests/programs/shown.sh PROGRAM. Names
# of the configuration, files and lines of C; assertions; searches and hunts that end when their time is over; a
# configuration that the board doesn't take.
. "$(dirname "$0")/check.sh"
sdk=$PWD/sdk
for tool in python3 make; do
    have "$tool" "what the kit shows" || { summary; exit; }
done
keep_objects

# sdk/debian waits for another one. (This apt-get has a package.)
mkdir -p "$work/kit/sdk" "$work/kit/build/debian" "$work/bin"
cp sdk/debian "$work/kit/sdk"
: > "$work/kit/Makefile"
cat > "$work/bin/apt-get" << END
#!/bin/sh
case "\$*" in
    *--download-only*) touch package.tar ;;
    *) touch "$work/kit/build/debian/lists/a_Sources" ;;
esac
END
chmod +x "$work/bin/apt-get"
if [ -e /usr/share/keyrings/debian-archive-keyring.gpg ]; then
    exec 7> "$work/kit/build/debian/lock"
    flock 7
    (PATH=$work/bin:$PATH exec "$work/kit/sdk/debian" package "$work/package") > "$work/said" 2>&1 7>&- &
    for _ in $(seq 100); do
        [ -s "$work/said" ] && break
        sleep 0.1
    done
    waits=$(cat "$work/said")
    early=$(ls "$work/package")
    exec 7>&-
    wait $!
    status=$?
    verdict "sdk/debian waits for another" "$(
        [ "$waits" = "sdk/debian: waits for another that has begun" ] && [ $status = 0 ] && [ -z "$early" ] &&
            [ "$(ls "$work/package")" = package.tar ] || echo "status $status: $waits; early $early")"
else
    skip "sdk/debian waits for another" "Debian's keys"
fi

have mips-linux-gnu-gcc "what the kit shows" || { summary; exit; }

# project FOLDER ARGUMENT..: make in the folder of a project, which leaves $work/out and $work/err.
project() {
    make -s -C "$1" SDK="$sdk" BOARD="$board" BUILD="$work/build" "${@:2}" < "$work/nothing" > "$work/out" \
        2> "$work/err"
}

# says NAME STATUS PATTERN FOLDER ARGUMENT..: make's status, and a line of what it prints has the pattern.
says() {
    local name=$1 status=$2 pattern=$3 got wrong=
    shift 3
    project "$@"
    got=$?
    [ $got = "$status" ] || wrong="; status $got, wanted $status"
    cat "$work/out" "$work/err" > "$work/said"
    grep -qE -- "$pattern" "$work/said" || wrong="$wrong; no line '$pattern'"
    verdict "$name" "${wrong:+$wrong: $(head -c 1500 "$work/said")}"
}

# has NAME PATTERN..: lines of what was said last have each of the patterns.
has() {
    local name=$1 wrong=
    for pattern in "${@:2}"; do
        grep -qE -- "$pattern" "$work/said" || wrong="$wrong; no line '$pattern'"
    done
    verdict "$name" "${wrong:+$wrong: $(head -c 1500 "$work/said")}"
}

new=$work/new
sdk/new "$new" > "$work/nothing_said"
adders=$work/adders
cp -r tests/data/kit/adders "$adders"

# A trace without names, by `board` itself, has the same lines: the names of tasks, other objects and lines, the lines
# of calls and the width of a column are all that is added.
project "$new" all
"$board" trace "$work/build/firmware.elf" "$work/build/firmware.cfg" "$new/firmware.journal" |
    sed 's/; [a-z]*\.[a-z]*:[0-9]*$//; s/  */ /g' > "$work/wanted"
project "$new" trace
sed 's/ (\(GREETER\|PRESSED\|BUTTON\))//g; s/(PRESSED)/(1)/g; s/; [a-z]*\.[a-z]*:[0-9]*$//; s/  */ /g' "$work/out" |
    diff "$work/wanted" - > "$work/differs"
verdict "a trace with names has the lines of one without" "$(head -n 5 "$work/differs")"
cp "$work/out" "$work/said"
has "names and lines in a trace" \
    '^ +event cpu who                where               what$' \
    '^ +[0-9]+ 1   task 1 \(GREETER\)   greet\+0x[0-9a-f]+ +wai_sem\(PRESSED\), waits for semaphore 1 \(PRESSED\), cpu 1 idle; firmware\.c:15$' \
    '^ +2000 +the interrupt of line 3 \(BUTTON\) is raised$' \
    '^ +[0-9]+ 1   handler 3 \(BUTTON\) press\+0x[0-9a-f]+ +isig_sem\(PRESSED\) = E_OK, task 1 \(GREETER\): wai_sem\(PRESSED\) = E_OK, task 1 \(GREETER\) ready; firmware\.c:8$' \
    "put_chr\\('H'\\) = E_OK; format\\.c:[0-9]+\$"
says "a place that has a line keeps it" 0 '^ +2[0-9]+ 1   handler 3 \(BUTTON\) press .*; firmware\.c:7$' \
    "$new" trace TRACEFLAGS="--instructions --from 2000 --to 2020"
says "names in a summary" 0 '^cpu 1 runs task 1 \(GREETER\), last step at event [0-9]+$' \
    "$new" trace TRACEFLAGS=--summary
says "names and lines of stacks" 0 \
    '^task 1 \(GREETER\): [0-9]+ of 1024 bytes, event [0-9]+ at [a-z_]+(\+0x[0-9a-f]+)? \([0-9a-f]{8}, [a-z]+\.c:[0-9]+\)$' \
    "$new" stacks
says "names in a report" 0 '^task 1 \(GREETER\) ready pri 1 cpu 1$' "$new" run
for form in json svg html lcov callgrind; do
    project "$new" trace TRACEFLAGS="--format $form --to 3000"
    "$board" trace --format $form --to 3000 "$work/build/firmware.elf" "$work/build/firmware.cfg" \
        "$new/firmware.journal" > "$work/wanted"
    # (In the name of a file the project's folder stands; `board` is called elsewhere.)
    verdict "what isn't text is as it was, $form" "$(cmp "$work/wanted" "$work/out")"
done
printf '%s\n' 'goto 2000' | make -s -C "$new" SDK="$sdk" BOARD="$board" BUILD="$work/build" debug > "$work/said" 2>&1
has "names in the debugger" '^at 2000: line 3 \(BUTTON\) is raised$'
says "a wrong option of a trace" 2 '^board: ' "$new" trace TRACEFLAGS="--from 9 --to 1"
verdict "a trace that nobody reads any more" "$(
    make -s -C "$new" SDK="$sdk" BOARD="$board" BUILD="$work/build" trace 2>&1 > >(head -n 1 > "$work/out") |
        grep -v '^make: ')"

# A call through a null pointer: where it was made.
sed 's/^    ext_ker/    ((void (*)(void))(times - 3))();\n&/' sdk/project/firmware.c > "$new/firmware.c"
line=$(grep -n 'times - 3' "$new/firmware.c" | cut -d: -f 1)
says "the line of a call through a null pointer" 2 \
    "fetch outside RAM at 00000000, \\\$ra is greet\\+0x[0-9a-f]+ \\(firmware\\.c:$line\\)\$" "$new" test STRICT=1
says "the same in a trace" 0 "\\\$ra is greet\\+0x[0-9a-f]+ \\(firmware\\.c:$line\\), task 1 \\(GREETER\\) dormant" \
    "$new" trace
cp sdk/project/firmware.c "$new"

# The switches of a schedule that fails.
says "lines of C at the switches of a search" 2 \
    'processor 1 stops before .* at add\+0x8 \(firmware\.c:[0-9]+\); processor 2 goes on at task_2 \(SECOND\)$' \
    "$adders" explore CFLAGS=-DRACE
says "lines of C at the switches of what was made shorter" 0 \
    'processor 2 stops before .* at add\+0x[0-9a-f]+ \(firmware\.c:[0-9]+\); processor 1 goes on at add\+0x8 \(firmware\.c:[0-9]+\)$' \
    "$adders" shrink CFLAGS=-DRACE

# Searches that end when their time is over: all schedules up to a bound, what fails, and what isn't known.
says "a search with time enough" 0 \
    '^none of the schedules fails: at most 100000 events, 2 preemptions, 0 ticks and 0 raises$' \
    "$adders" explore TIME=300 PREEMPTIONS=2
says "a search with time finds what fails" 2 '^fails after [0-9]+ events: ' "$adders" explore TIME=300 CFLAGS=-DRACE
says "a search whose time is over" 0 '^with [1-9][0-9]* preemptions?: not known, TIME=2 seconds are over$' \
    "$adders" explore TIME=2 LOOK='--memory 0'
has "what a search knows when its time is over" \
    '^none of [0-9]+ schedules? fails: at most 100000 events, [0-9]+ preemptions?, 0 ticks and 0 raises$'
verdict "they are one bound apart" "$(awk '
    /^none of/ { sub(/.*events, /, ""); known = $1 }
    /not known/ { unknown = $2 }
    END { if (unknown != known + 1) print known, unknown }' "$work/said")"
says "a search that ends since one preemption more makes no more schedules" 0 \
    '^none of the schedules fails: at most 10 events, 1 preemption, 0 ticks and 0 raises$' \
    "$new" explore TIME=300 RAISES=0 EVENTS=10
says "a search with no time for one without preemptions" 2 '^without preemptions: not known, TIME=1 seconds are over$' \
    "$adders" explore TIME=1 TICKS=9 LOOK='--memory 0'
says "a search's TIME" 2 "^TIME is a number of seconds, and not 'long'\$" "$adders" explore TIME=long
says "a hunt whose time is over" 0 '^TIME=2 seconds are over: seed [0-9]+ is the next$' "$adders" hunt TIME=2 SEED=5
has "what a hunt knows when its time is over" '^ok: [0-9]+ orders?, from seed 5 on, with the console of firmware\.journal$'
says "a hunt that is done before its time is over" 0 '^ok: 3 orders, from seed 1 on' "$adders" hunt TIME=300 TRIES=3
verdict "it doesn't say that it is over" "$(grep TIME "$work/said")"
says "a hunt's TIME" 2 "^TIME is a number from 1 to 1000000, and not '0'\$" "$adders" hunt TIME=0

# Assertions: at once, whatever the level of optimization, the byte order and who it is; nothing is printed.
says_assertion() {
    sed "$3" sdk/project/firmware.c > "$new/firmware.c"
    says "$1" 2 "^$2\$" "$new" test CFLAGS=-w "${@:4}"
    cp sdk/project/firmware.c "$new"
}
task="firmware\\.c:16: this doesn't hold: i < 2 \\(task 1 \\(GREETER\\), processor 1\\)"
handler="firmware\\.c:7: this doesn't hold: line != BUTTON \\(handler of line 3 \\(BUTTON\\), processor 1\\)"
for flags in OPTIMIZE=-O0 OPTIMIZE=-O2 OPTIMIZE=-Os STACK_CHECK=1 ORDER=little; do
    says_assertion "an assertion in a task, $flags" "$task" 's/answer == E_OK/i < 2/' $flags
    says_assertion "an assertion in a handler, $flags" "$handler" 's/line == BUTTON/line != BUTTON/' $flags
done
says_assertion "an assertion with a text in it" \
    'firmware\.c:16: this doesn.t hold: "%d\\n\\""\[i\] == .%. \(task 1 \(GREETER\), processor 1\)' \
    's/answer == E_OK/"%d\\n\\""[i] == '"'%'"'/'
sed 's/answer == E_OK/i < 2/' sdk/project/firmware.c > "$new/firmware.c"
says "a console at an assertion isn't accepted" 2 "^  $task\$" "$new" accept CFLAGS=-w
verdict "it is left as it is" "$(diff sdk/project/firmware.console "$new/firmware.console")"
says "a report of an assertion" 0 "^$task\$" "$new" run CFLAGS=-w
says "a hunt whose journal has an assertion" 2 "^  $task\$" "$new" hunt CFLAGS=-w TRIES=2 EXPECT=refused
# (With one press, since of several one may be lost, which fails, too.)
sed 's/answer == E_OK/i < 1/' sdk/project/firmware.c > "$new/firmware.c"
says "schedules with an assertion" 2 "^${task/i < 2/i < 1}\$" "$new" explore CFLAGS=-w RAISES=1
# From the condition to the exception, and so from there to the failure of a search, there are some steps and no calls.
project "$new" trace CFLAGS=-w TRACEFLAGS="--instructions"
grep ' (GREETER) ' "$work/out" | sed '/ board_stop  *Bp: /q' | tail -n 12 > "$work/said"
has "an assertion is an exception at once" 'wai_sem|firmware\.c:16$' 'board_stop +Bp: break 0'
verdict "nothing is printed by it" "$(grep -c put_chr "$work/said" | grep -vx 0)"
cp sdk/project/firmware.c "$new"
# One that comes in another order alone, whatever is expected of an order.
cp -r tests/data/kit/interrupted "$work/interrupted"
sed 's/ *printf/    assert(pulses == 33);\n&/' tests/data/kit/interrupted/firmware.c > "$work/interrupted/firmware.c"
says "an order with an assertion" 2 \
    "^seed [0-9]+: firmware\\.c:[0-9]+: this doesn't hold: pulses == 33 \\(task 1 \\(COUNT\\), processor 1\\); the order is kept" \
    "$work/interrupted" hunt CFLAGS=-DRACE EXPECT=off
has "how it was then" "^firmware\\.c:[0-9]+: this doesn't hold: pulses == 33 \\(task 1 \\(COUNT\\), processor 1\\)\$"

# A configuration that the board doesn't take is refused by `make`, each time, and with its line.
sed 's/CRE_SEM/CRE_CYC/' sdk/project/firmware.cfg > "$new/firmware.cfg"
for time in first second; do
    says "a statement that the kernel hasn't, the $time time" 2 "^firmware\\.cfg:5: this kernel hasn't CRE_CYC \\(" \
        "$new" all
done
cp sdk/project/firmware.cfg "$new"
says "the configuration mended" 0 '^ok: firmware.journal$' "$new" test
sleep 1
touch "$new/firmware.c"
says "a configuration that nobody judges" 0 '^nobody has judged firmware\.cfg: there is no program nosuch, ' \
    "$new" all BOARD=nosuch
project "$new" all
verdict "it is judged as soon as somebody can" "$([ -e "$work/build/firmware/judged" ] || echo "it isn't")"
verdict "what is judged right is silent" "$(cat "$work/out" "$work/err")"
summary
