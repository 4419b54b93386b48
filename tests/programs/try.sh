#!/bin/bash
# The tests of `try`: tests/programs/try.sh PROGRAM.
. "$(dirname "$0")/check.sh"
. tests/programs/growths.sh

# tries NAME STATUS ERROR ARGUMENT..: runs it, and compares what it prints with $work/wanted, and standard error with
# one line, or nothing.
tries() {
    "$board" try "${@:4}" < /dev/null > "$work/out" 2> "$work/err"
    check "try: $1" "$2" "$work/wanted" "$3" $?
}

# tells NAME PATTERN ARGUMENT..: runs it, and looks for a line of its output that is this extended regular expression.
# Beside warnings nothing is on standard error.
tells() {
    local got wrong=
    "$board" try "${@:3}" < /dev/null > "$work/out" 2> "$work/err"
    got=$?
    [ $got = 0 ] || wrong="status $got"
    grep -qv '^board: warning: ' "$work/err" && wrong="$wrong; $(cat "$work/err")"
    grep -qxE -- "$2" "$work/out" || wrong="$wrong; no line is '$2': $(cat "$work/out")"
    verdict "try: $1" "$wrong"
}

cat > "$work/wanted" << 'END'
Hi
stopped: ext_ker at done+0x4 after 25 steps
$v0 0x29  $s0 0x8000002b  $sp 0x80010000
END
tries "a source" 0 "" examples/hello/hello.s
"$board" asm examples/hello/hello.s "$work/hello.elf"
tries "an object file" 0 "" "$work/hello.elf"
"$board" try - < examples/hello/hello.s > "$work/out" 2> "$work/err"
check "try: standard input" 0 "$work/wanted" "" $?
{ echo '.byteorder little'; cat examples/hello/hello.s; } > "$work/little.s"
tries "a little-endian source" 0 "" "$work/little.s"
echo "board-journal 2 little" > "$work/wanted-line"
"$board" try --keep "$work/little" "$work/little.s" > "$work/out" 2> "$work/err"
head -n 1 "$work/little.journal" > "$work/out"
check "try: a little-endian journal" 0 "$work/wanted-line" "" 0

# What it ran is kept as `run` and `trace` take it.
tries "what is kept" 0 "open $work/page.html in a browser" --keep "$work/kept" --page "$work/page.html" \
    examples/hello/hello.s
cat > "$work/wanted.cfg" << 'END'
BOARD(1, 0x00010000);
CLASS(TCL_1) {
    CRE_TSK(1, {TA_ACT, 1, 0x80000000, 1, 4096, NULL});
}
END
printf 'board-journal 2 big\nS 1 25\n' > "$work/wanted.journal"
wrong=
for kind in cfg journal; do
    cmp -s "$work/wanted.$kind" "$work/kept.$kind" || wrong="$wrong; kept.$kind: $(cat "$work/kept.$kind")"
done
kept=("$work/hello.elf" "$work/kept.cfg" "$work/kept.journal")
"$board" trace --format html "${kept[@]}" | cmp -s - "$work/page.html" || wrong="$wrong; the page isn't that of trace"
"$board" run "${kept[@]}" | sed -n '/^console/,$p' > "$work/out"
printf 'console 3\nHi\n\n' | cmp -s - "$work/out" || wrong="$wrong; run has another console: $(cat "$work/out")"
verdict "try: the files that are kept" "$wrong"

# Where tasks begin, what they are given, and who takes which turn: each writes its number and ends by ext_tsk.
cat > "$work/tasks.s" << 'END'
        break
main:   addiu   $s0, $a0, 0x30
        move    $a0, $s0
        addiu   $v0, $0, 40
        syscall
        addiu   $v0, $0, 3
        syscall
END
tells "a task begins at main" "stopped: every task has ended, after 6 steps" "$work/tasks.s"
tells "a task is given its processor's number" "1" "$work/tasks.s"
tells "turns of three processors" "123" --cpus 3 "$work/tasks.s"
tells "steps of three processors" "stopped: every task has ended, after 18 steps" --cpus 3 "$work/tasks.s"
# shellcheck disable=SC2016
tells "registers of three tasks" 'task 3: \$v0 0x3  \$a0 0x33  \$s0 0x33  \$sp 0x[0-9a-f]{8}' --cpus 3 "$work/tasks.s"
tells "eight processors" "12345678" --cpus 8 "$work/tasks.s"
tells "as many steps as are wanted" "stopped: no end after 4 steps" --steps 4 "$work/tasks.s"
tells "one step" "stopped: no end after 1 step" --steps 1 "$work/tasks.s"
tells "no step" "stopped: no end after 0 steps" --steps 0 "$work/tasks.s"
tells "ticks are among the events" "stopped: no end after 2 steps" --steps 4 --tick-every 2 "$work/tasks.s"

# What goes wrong, in the words of `trace --summary`.
printf 'main: b main\n nop\n' > "$work/spin.s"
tells "a task that spins" "stopped: no end after 10000 steps" "$work/spin.s"
tells "where it spins" "task 1 ready since the start, at main(\+0x4)? \(8000000[04]\)" "$work/spin.s"
tells "that it spins" "cpu 1 spins since the start at main \(80000000\): 2 instructions that change nothing" \
    "$work/spin.s"
# shellcheck disable=SC2016
printf 'main: lw $t0, 0($0)\n' > "$work/fault.s"
tells "an exception" \
    " *last exception at event 0, of task 1 at main .*: DBE: load from 00000000, outside RAM" "$work/fault.s"
# shellcheck disable=SC2016
printf 'main: addiu $t0, $0, 5\n' > "$work/off.s"
tells "a run off the end" \
    "task 1 has run off the end of the program: nothing of it lies at [0-9a-f]{8}" "$work/off.s"
cat > "$work/waits.s" << 'END'
main:   addiu   $v0, $0, 16
        syscall
        b       main
        nop
END
tells "a task that waits" "task 1 waiting since event 1, .*, slp_tsk\\(\\) waits for a wake-up" "$work/waits.s"

# --strict: what goes past a label's data, by pointers, indexes and offsets, and what only seems to.
past="past a label's data:"
cat > "$work/past.s" << 'END'
main:   lui     $t0, %hi(samples)
        addiu   $t0, $t0, %lo(samples)
        addiu   $t1, $t0, 32
mark:   sw      $t2, 0($t0)             # marks nine words of eight
        sltu    $t3, $t0, $t1
        bnez    $t3, mark
        addiu   $t0, $t0, 4
        addiu   $t1, $0, 0
next:   lui     $t0, %hi(text)
        addu    $t0, $t0, $t1
        lbu     $a0, %lo(text)($t0)     # loads eight bytes of six
        addiu   $t1, $t1, 1
        slti    $t2, $t1, 8
        bnez    $t2, next
        nop
        lui     $t3, %hi(last)
        ori     $t3, $t3, %lo(last)
        move    $t4, $t3
        lh      $t5, 3($t4)             # is an exception, and so never done
        addiu   $v0, $0, 41
        syscall
samples: .word  65, 66, 67, 68, 69, 70, 71, 72
chosen: .word   samples
text:   .asciiz "hello"
count:  .byte   3
        .align  2
last:   .word   5
END
# shellcheck disable=SC2016
for line in 'task 1 at mark (8000000c), event 35: sw $t2, 0($t0) stores 4 bytes at offset 32 of samples, which has 32 '\
'bytes: chosen (80000074) lies there' \
    'task 1 at next+0x8 (80000028), event 84: lbu $a0, 120($t0) loads 1 byte at offset 6 of text, which has 6 bytes: '\
'count (8000007e) lies there, and 1 time after it'; do
    tells "what goes past a label's data" "$(sed 's/[$()+]/\\&/g' <<< "$past $line")" --strict "$work/past.s"
done
"$board" try "$work/past.s" > "$work/out" 2> "$work/err"
verdict "try: nothing of that without --strict" "$(grep "$past" "$work/out")"
cat > "$work/quiet.s" << 'END'
main:   lui     $t0, %hi(end)           # from the next label backwards, and to another label by the distance of two
        addiu   $t0, $t0, %lo(end)
        lui     $t1, %hi(one)
        ori     $t1, $t1, %lo(one)
        lui     $t2, %hi(two)
        addiu   $t2, $t2, %lo(two)
        subu    $t3, $t2, $t1
back:   addiu   $t0, $t0, -4
        lw      $t4, 0($t0)
        addu    $t5, $t1, $t3
        sw      $t4, 0($t5)
        addiu   $t1, $t1, 4
        bne     $t1, $t2, back
        nop
        addiu   $v0, $0, 41
        syscall
one:    .word   1, 2, 3
two:    .word   4, 5, 6
end:    .word   7
END
tells "nothing goes past a label's data" "$past none seen" --strict "$work/quiet.s"
cat > "$work/edge.s" << 'END'
main:   lui     $t0, %hi(last)
        addiu   $s0, $t0, %lo(last)
        sub     $t2, $s0, $a0
        lb      $t3, 6($t2)
        addiu   $v0, $0, 3
        syscall
last:   .word   5
END
# shellcheck disable=SC2016
tells "past all that is loaded" "$past task 1 at main\+0xc .*, event 6: lb .* at offset 5 of last, which has 4 bytes: \
nothing of the program lies there, and 1 time after it" --strict --cpus 2 "$work/edge.s"
"$board" asm "$work/edge.s" "$work/edge.elf"
printf '\0' >> "$work/edge.elf"
tells "what asm didn't write" "$past not looked for, as board asm didn't write this object file" \
    --strict "$work/edge.elf"

# Mistakes: the first is told as `asm` tells it, and then those behind it, each once, 20 at most.
cat > "$work/mistakes.s" << 'END'
        .equ    five, 5
main:   addiu   $t0, $t0
        b       nowhere
        nop
here:   li      $t1, five
        b       here
        nop
here:   nop
        addiu   $t0, $t0, 70000
END
"$board" try "$work/mistakes.s" > "$work/out" 2> "$work/told"
wrong=$(differs 1 "$work/nothing" $?)
# Where the lines of those that were told are mended, the next one is told as `asm` tells it.
: > "$work/wanted"
for mending in '' '2s/addiu.*/nop/' '5s/li.*/nop/' '8s/here:/     /' '3s/b .*/nop/'; do
    [ -z "$mending" ] || sed -i "$mending" "$work/mistakes.s"
    "$board" asm "$work/mistakes.s" "$work/mistakes.elf" 2>> "$work/wanted"
done
[ "$(wc -l < "$work/wanted")" = 5 ] || wrong="$wrong; asm tells $(cat "$work/wanted")"
cmp -s "$work/told" "$work/wanted" || wrong="$wrong; told: $(cat "$work/told")"
verdict "try: mistakes in five lines" "$wrong"
for ((line = 1; line <= 30; line++)); do echo "x$line: addiu \$t0, \$t0"; done > "$work/many.s"
"$board" try "$work/many.s" > "$work/out" 2> "$work/err"
wrong=$(differs 1 "$work/nothing" $?)
[ "$(wc -l < "$work/err")" = 21 ] || wrong="$wrong; $(wc -l < "$work/err") are told"
[ "$(tail -n 1 "$work/err")" = "board: and more: these are the first 20 mistakes of the source" ] ||
    wrong="$wrong; the last line is $(tail -n 1 "$work/err")"
verdict "try: twenty mistakes of thirty" "$wrong"
# Refusals.
: > "$work/wanted"
tries "no processor" 2 "board: CPUS is 1 to 8" --cpus 0 examples/hello/hello.s
tries "nine processors" 2 "board: CPUS is 1 to 8" --cpus 9 examples/hello/hello.s
tries "too many turns" 2 "board: the journal needs more than 4194304 runs" \
    --steps 4194305 --cpus 2 examples/hello/hello.s
tries "no such file" 4 "board: can't open $work/nosuch: $is_missing" "$work/nosuch"
tries "a folder" 4 "board: can't read the source: $is_directory" /
printf '\177ELF' > "$work/damaged.elf"
"$board" run "$work/damaged.elf" examples/hello/hello.cfg examples/hello/hello.journal 2> "$work/first"
tries "a damaged object file" 1 "$(cat "$work/first")" "$work/damaged.elf"
"$board" try examples/hello/hello.s > /dev/full 2> "$work/err"
got=$?
cp "$work/wanted" "$work/out"
check "try: output that can't be written" 4 "$work/wanted" "board: can't write the output: $is_full" "$got"
rm -f "$work/unkept.cfg"
"$board" try --keep "$work/unkept" examples/hello/hello.s > /dev/full 2> "$work/err"
[ -e "$work/unkept.cfg" ] && wrong="the configuration is there" || wrong=
verdict "try: nothing is kept where output can't be written" "$wrong"
"$board" try examples/hello/hello.s > "$work/wanted"
tries "a folder that isn't there" 4 "board: can't open $work/nosuch/kept.cfg: $is_missing" \
    --keep "$work/nosuch/kept" examples/hello/hello.s
"$board" try --steps 100001 "$work/spin.s" > "$work/wanted"
tries "a page of the last events" 0 "open $work/long.html in a browser" --steps 100001 --page "$work/long.html" \
    "$work/spin.s"
tries "a page that can't be created" 4 "board: can't open $work/nosuch/page.html: $is_missing" \
    --steps 100001 --page "$work/nosuch/page.html" "$work/spin.s"
verdict "try: the last 100,000 of 100,001 events" \
    "$(grep -q '"from":1,"asked":0,' "$work/long.html" || head -c 300 "$work/long.html")"

# With each growth refused in turn.
cp "$work/tasks.s" "$work/in"
"$board" try --cpus 2 --keep "$work/grown" "$work/tasks.s" > "$work/wanted"
refuse_each "try" 3 "board: out of memory" "$board" try --cpus 2 --keep "$work/grown" -

summary
