#!/bin/bash
# The tests of `board trace`: tests/programs/trace.sh PROGRAM. Most are scenes (tests/programs/scenes.sh); here is what
# no scene can say. Each test runs the program, and wants some text of it.
. "$(dirname "$0")/check.sh"
lay trace_handlers trace_spins trace_links trace_loads

# run_trace ARGUMENTS..: runs `board trace`, which leaves $work/out and $work/err. The status is its own.
run_trace() {
    "$board" trace "$@" < /dev/null > "$work/out" 2> "$work/err"
}

# trace NAME OUTPUT-FILE ARGUMENTS..: `board trace` prints the file, which isn't empty, and nothing else.
trace() {
    run_trace "${@:3}"
    local got=$?
    [ -s "$2" ] || got="$got with an output that is empty"
    check "trace: $1" 0 "$2" "" "$got"
}

# refused NAME STATUS ERROR ARGUMENTS..: `board trace` prints nothing but one line of an error.
refused() {
    run_trace "${@:4}"
    check "trace: $1" "$2" "$work/nothing" "${3:?}" $?
}

# has NAME LINES-FILE PATTERN: the lines of $work/out with the pattern are those of the file, which isn't empty.
has() {
    local wrong=
    [ -s "$2" ] || wrong="; no line is wanted"
    grep -E -- "$3" "$work/out" | cmp -s - "$2" || wrong="$wrong; other lines have '$3'"
    verdict "trace: $1" "$wrong"
}

# assembled NAME SOURCE: makes $work/image of a source.
assembled() {
    "$board" asm "$2" "$work/image" 2> "$work/err" || fail "trace: $1" "$(cat "$work/err")"
}

# example NAME: makes $work/image of an example's source, and `files` what `board trace` reads of it.
example() {
    assembled "$1" "examples/$1.s"
    files=("$work/image" "examples/$1.cfg" "examples/$1.journal")
}

# scene NAME: `files` becomes what `board trace` reads of a scene that is laid out.
scene() {
    folder=$laid/$1
    files=("$folder/image.elf" "$folder/config.cfg" "$folder/journal")
}

# shown NAME PATTERN: some scene's lines, which tests/programs/scenes.sh compares with those of the program, have the
# pattern.
shown() {
    verdict "trace: $1" "$(grep -qE -- "$2" tests/scenes/*/lines || echo "no scene has '$2'")"
}

# Every service call of the documents, every answer and every exception is in some scene's lines.
for call in $(sed -nE 's/^\| [0-9]+ \| `([a-z_]+)` \|.*/\1/p' docs/KERNEL.md); do
    shown "$call" " $call\\("
done
for answer in $(sed -nE 's/^\| (E_[A-Z]+) \|.*/\1/p' docs/KERNEL.md); do
    shown "$answer" " = $answer"
done
for exception in AdEL AdES IBE DBE Bp RI Ov Tr; do
    shown "$exception" " $exception: "
done

# From each position on, also while a line is pending: the lines of the whole, but for those that count events.
counts=' (idle|stopped|no such processor), | (pending already|has no handler): '
scene trace_handlers
run_trace "${files[@]}"
tail -n +3 "$work/out" | grep -vE "$counts" > "$work/rest"
wrong=
for from in $(seq 0 66); do
    awk -v from="$from" '$1 >= from' "$work/rest" > "$work/lines"
    run_trace --from "$from" "${files[@]}"
    tail -n +3 "$work/out" | grep -vE "$counts" | cmp -s - "$work/lines" || wrong="$wrong $from"
done
[ -s "$work/rest" ] || wrong="; no lines"
verdict "trace: from each position" "$wrong"

# Parts of a journal: the lines of the parts are those of the whole, but for the one that begins each.
example data_queue/data_queue
"$board" trace "${files[@]}" > "$work/whole"
"$board" trace --to 60 "${files[@]}" > "$work/parts"
"$board" trace --from 60 "${files[@]}" | tail -n +3 >> "$work/parts"
lines=$(wc -l < "$work/whole")
[ "$lines" -gt 20 ] && wrong= || wrong="; the whole has $lines lines"
verdict "trace: two parts" "$wrong$(cmp "$work/whole" "$work/parts" 2>&1)"

# One processor: the lines of its steps, and those that say what it runs from then on. They are all there.
head -n 2 "$work/whole" > "$work/second"
tail -n +3 "$work/whole" | grep -E '^ *[0-9]+ (2 |.*[, ]cpu 2 (runs|idle|stopped))' >> "$work/second"
lines=$(wc -l < "$work/second")
[ "$lines" -gt 5 ] || fail "trace: one processor" "only $lines lines are wanted"
trace "one processor" "$work/second" --cpu 2 "${files[@]}"
head -n 2 "$work/whole" > "$work/first"
trace "no such processor" "$work/first" --cpu 9 "${files[@]}"
trace "to past the end" "$work/whole" --to 18446744073709551615 "${files[@]}"

# Who spins comes after the lines: of the processor that is asked for alone, and not where only loads are shown.
scene trace_spins
{ head -n 2 "$folder/lines"; grep -E '^ *[0-9]+ 2 |^cpu 2 spins' "$folder/lines"; } > "$work/second"
trace "one processor that spins" "$work/second" --cpu 2 "${files[@]}"
run_trace --word 0x80000100 "${files[@]}"
verdict "trace: loads, and not who spins" "$(grep -q ' lw ' "$work/out" || echo 'no loads'; grep ' spins ' "$work/out")"
example data_queue/data_queue

# Each event is told of once: with instructions, the lines and the counts add up to the journal.
"$board" trace --instructions --to 115 "${files[@]}" | tail -n +3 > "$work/each"
lines=$(grep -vcE ' idle, [0-9]+ steps?$' "$work/each")
more=$(sed -nE 's/.* idle, ([0-9]+) steps?$/\1/p' "$work/each" | awk '{ sum += $1 } END { print sum + 0 }')
[ $((lines + more)) = 115 ] && missing= || missing="$lines lines and $more steps"
verdict "trace: each event once" "$missing"

# Words: the lines of the instructions that load or store them, which also say what was written over.
# of_words NAME WORDS PATTERN: the lines with `--word` are those of `--instructions` with the pattern.
of_words() {
    local wrong=
    "$board" trace --instructions "${files[@]}" | tail -n +3 | grep -E -- "$3" > "$work/lines"
    [ -s "$work/lines" ] || wrong="; no line is wanted"
    run_trace --word "$2" "${files[@]}"
    tail -n +3 "$work/out" | sed -E 's/, was [0-9a-f]{8}//' | cmp -s - "$work/lines" || wrong="$wrong; other lines"
    grep -E ' s[bhcw][lr]? ' "$work/lines" | grep -vc '; not stored' > "$work/stores"
    grep -c ', was ' "$work/out" | cmp -s - "$work/stores" || wrong="$wrong; other stores"
    verdict "trace: $1" "$wrong"
}
example lost_update/racy
of_words "one word" count '; count \(80000070\): '
of_words "one word, by its address" 0x80000070 '; count \(80000070\): '
example lost_update/repaired
of_words "a word of LL and SC" count '; count \([0-9a-f]+\): '
scene trace_links
of_words "a word whose links end" word '; word \(80000100\): '
scene trace_loads
of_words "bytes and halfwords of a word" word '; word(\+0x[0-3])? \([0-9a-f]+\): '

# What is refused, and faults of files.
example data_queue/data_queue
for words in missing 0x80000000,missing '' 0x80000000,; do
    refused "no such word, $words" 2 \
        "board: the trace: --word names a symbol that the object file doesn't have" --word "$words" "${files[@]}"
done
for words in 0x80000002 0x7ffffffc 0xfffffffc 80000000g; do
    refused "no word at '$words'" 2 \
        "board: the trace: --word has symbols, or 0x and hexadecimal addresses, of aligned words of RAM, with commas \
between them" --word "$words" "${files[@]}"
done
refused "from above to" 2 "board: the trace: there are no events from 5 to 3: the journal has 125" \
    --from 5 --to 3 "${files[@]}"
refused "from above the length" 2 "board: the trace: there are no events from 126 to 125: the journal has 125" \
    --from 126 "${files[@]}"
refused "no such format" 2 "board: the trace: its formats are text, json, svg, html, lcov and callgrind" \
    --format png "${files[@]}"
refused "no journal" 4 "board: can't open missing: $is_missing" "$work/image" examples/data_queue/data_queue.cfg missing
refused "no object file" 1 \
    "board: the object file: no ELF file: it doesn't begin with the bytes 7F 45 4C 46; it looks like a journal" \
    examples/data_queue/data_queue.journal "${files[@]:1}"
: > "$work/out"
"$board" trace "${files[@]}" > /dev/full 2> "$work/err"
check "trace: a full disk" 4 "$work/nothing" "board: can't write the output: $is_full" $?
"$board" trace --format json "${files[@]}" > /dev/full 2> "$work/err"
check "trace: a full disk, json" 4 "$work/nothing" "board: can't write the output: $is_full" $?

# entries ARGUMENTS..: leaves what `--format json` prints in $work/out, without the commas between the entries.
entries() {
    run_trace --format json "$@"
    sed -i 's/,$//' "$work/out"
}

# off LENGTH START: the slices of a board of two processors and three tasks that is off.
off() {
    local lane
    for lane in '1,"tid":1' '1,"tid":2' '2,"tid":3' '2,"tid":4' '2,"tid":5'; do
        echo "{\"ph\":\"X\",\"pid\":$lane,\"dur\":$1,\"ts\":$2,\"cat\":\"off\",\"name\":\"off\"}"
    done
}

# A picture has at most 5,000 lanes and slices. Marks never keep one from being made.
# pictured NAME MARKS ARGUMENTS..: a picture is made, which has so many marks of calls.
pictured() {
    local wrong=
    run_trace --format svg "${@:3}" || wrong="; status $?: $(cat "$work/err")"
    [ "$(tail -n 1 "$work/out")" = "</svg>" ] || wrong="$wrong; another last line"
    [ "$(grep -c '(call), at' "$work/out")" = "$2" ] || wrong="$wrong; it has other marks"
    verdict "trace: $1" "$wrong"
}
cat > "$work/calls.s" << 'END'
main:   addiu   $a0, $zero, 0
        addiu   $v0, $zero, 10          # rot_rdq
        syscall
        b       main
        nop
END
cat > "$work/calls.cfg" << 'END'
BOARD(1, 0x10000);
CRE_TSK(1, {TA_ACT, 1, main, 1, 256, NULL});
END
{ cat "$work/calls.cfg"; echo 'CRE_TSK(2, {TA_ACT, 2, main, 1, 256, NULL});'; } > "$work/turns.cfg"
printf 'board-journal 1\nS 1 30000\n' > "$work/calls.journal"
assembled "many calls" "$work/calls.s"
pictured "a picture of many calls" 4800 --to 24000 "$work/image" "$work/calls.cfg" "$work/calls.journal"
pictured "a picture of more calls than it shows" 0 --to 26000 "$work/image" "$work/calls.cfg" "$work/calls.journal"
pictured "a picture of many slices, and more with its calls" 0 \
    --to 8000 "$work/image" "$work/turns.cfg" "$work/calls.journal"
refused "a picture of more slices than it shows" 2 \
    "board: the trace: it has more to draw than a picture can show: choose fewer events by --from and --to" \
    --format svg --to 9000 "$work/image" "$work/turns.cfg" "$work/calls.journal"

# Names of symbols and of files of which an object file speaks may have any byte. What isn't printable ASCII is shown as
# `\xHH`, so that a name can't end a line, as that of a forged verdict, nor command a terminal.
# plain NAME TEXT ARGUMENTS..: what `board trace` prints has the text, and no byte but newlines and printable ASCII.
plain() {
    local wrong=
    run_trace "${@:3}" || wrong="; status $?: $(head -c 300 "$work/err")"
    grep -qF -- "$2" "$work/out" || wrong="$wrong; '$2' isn't there"
    LC_ALL=C grep -q '[^ -~]' "$work/out" && wrong="$wrong; a byte isn't printable"
    grep -q '^races: 0' "$work/out" && wrong="$wrong; a name has forged a line"
    verdict "trace: $1" "$wrong"
}
cat > "$work/names.s" << 'END'
escape: addiu   $sp, $sp, -8
        sw      $zero, 0($sp)
        jalr    $zero                   # its fetch fails, and $ra leads to the second name
        nop
forging________:
        nop
END
cat > "$work/names.cfg" << 'END'
BOARD(1, 0x10000);
CRE_TSK(1, {TA_ACT, 0, 0x80000000, 1, 256, NULL});
END
printf 'board-journal 1\nS 1 5\n' > "$work/names.journal"
assembled "names" "$work/names.s"
LC_ALL=C sed -i 's/escape/\x1b[31m\xff/; s/forging________/\nraces: 0 words/' "$work/image"
files=("$work/image" "$work/names.cfg" "$work/names.journal")
shown='\x1b[31m\xff'
forged='\x0araces: 0 words'
plain "names of symbols" "$forged" "${files[@]}"
plain "names of symbols in instructions" "$shown " --instructions "${files[@]}"
plain "names of symbols in stacks" "$shown (80000000)" --stacks "${files[@]}"
plain "names of symbols in a summary" "$forged" --summary "${files[@]}"
plain "names of symbols in a picture" "$forged" --format svg "${files[@]}"
plain "names of symbols as json" '\\x0araces: 0 words' --format json "${files[@]}"
plain "names of symbols in coverage" "$shown" --format lcov "${files[@]}"
plain "names of symbols in a profile" "$shown" --format callgrind "${files[@]}"
if have mips-linux-gnu-as "trace: names of files"; then
    source="$work"/$'\x1b[31m\nraces: 0 words\xc3\xa4.s'
    cp "$work/names.s" "$source"
    mips-linux-gnu-as -gdwarf-4 -mips32 -o "$work/names.o" "$source" &&
        mips-linux-gnu-ld -e 0x80000000 -T examples/firmware.ld -o "$work/image" "$work/names.o" ||
        fail "trace: names of files" "no object file"
    shown='\x1b[31m\x0araces: 0 words\xc3\xa4.s'
    plain "names of files" "$shown:1" --instructions "${files[@]}"
    run_trace --format lcov "${files[@]}"
    if grep -qF $'/\\x1b[31m\\x0araces: 0 words\xc3\xa4.s' "$work/out"; then
        pass "trace: names of files in coverage"
    else
        fail "trace: names of files in coverage" "$(grep '^SF' "$work/out")"
    fi
fi

# A raise is an instant of the processor that handles the line.
example interrupt/interrupt
printf '{"ph":"i","pid":1,"tid":1,"s":"t","ts":%s,"cat":"interrupt","name":"the interrupt of line 4 is raised"}\n' \
    9 27 > "$work/lines"
entries "${files[@]}"
has "raises as json" "$work/lines" '"name":"the interrupt of line 4 is raised"'

# The event of position 91 turns this board off: it is off from 92 to 110, where the journal ends.
example lost_update/racy
off 18 92 > "$work/lines"
entries "${files[@]}"
has "off as json" "$work/lines" '"off"'
off 10 100 > "$work/lines"
entries --from 100 "${files[@]}"
has "off from the first event on" "$work/lines" '"ph":"X"'

# Who holds a spin lock, who asks for it, and whose turn it is.
example spin_lock/spin_lock
cat > "$work/lines" << 'END'
{"ph":"X","pid":4,"tid":1,"dur":13,"ts":6,"cat":"held","name":"held by cpu 1"}
{"ph":"X","pid":4,"tid":1,"dur":5,"ts":20,"cat":"held","name":"held by cpu 2"}
{"ph":"X","pid":4,"tid":1,"dur":5,"ts":30,"cat":"held","name":"held by cpu 2"}
{"ph":"X","pid":4,"tid":1,"dur":5,"ts":40,"cat":"held","name":"held by cpu 2"}
{"ph":"X","pid":4,"tid":1,"dur":5,"ts":84,"cat":"held","name":"held by cpu 1"}
{"ph":"X","pid":4,"tid":1,"dur":5,"ts":94,"cat":"held","name":"held by cpu 1"}
{"ph":"X","pid":1,"tid":2,"dur":7,"ts":13,"cat":"spins","name":"spins for lock 1"}
{"ph":"X","pid":5,"tid":1,"dur":7,"ts":0,"cat":"turn","name":"cpu 1"}
{"ph":"X","pid":5,"tid":1,"dur":8,"ts":7,"cat":"turn","name":"cpu 2"}
{"ph":"X","pid":5,"tid":1,"dur":4,"ts":15,"cat":"turn","name":"cpu 1"}
{"ph":"X","pid":5,"tid":1,"dur":60,"ts":19,"cat":"turn","name":"cpu 2"}
{"ph":"X","pid":5,"tid":1,"dur":40,"ts":79,"cat":"turn","name":"cpu 1"}
END
entries "${files[@]}"
has "spin locks and turns as json" "$work/lines" '"cat":"(held|spins|turn)"'

# A tick has its number also if the first one comes before the part.
example deadlock/deadlock
echo '{"ph":"i","pid":3,"tid":1,"s":"t","ts":41,"cat":"tick","name":"tick 2"}' > "$work/lines"
entries --from 41 "${files[@]}"
has "the number of a tick as json" "$work/lines" '"cat":"tick"'

# Processor 1 takes the lock of the greatest number, and the task of processor 2 asks for it. Processor 3 starts a task
# of higher priority on processor 2, which runs from then on: so the other one spins no more, though its processor has
# made no further step. That event concerns processor 2 and no other.
cat > "$work/locks.s" << 'END'
one:    addiu   $a0, $zero, 255
        addiu   $v0, $zero, 60
        syscall                         # loc_spn(255)
end:    b       end
        nop
two:    addiu   $a0, $zero, 255
        addiu   $v0, $zero, 60
        syscall                         # loc_spn(255)
three:  addiu   $a0, $zero, 4
        addiu   $v0, $zero, 1
        syscall                         # act_tsk(4)
        b       end
        nop
END
cat > "$work/locks.cfg" << 'END'
BOARD(3, 0x10000);
CRE_SPN(255, {TA_NULL});
CRE_TSK(1, {TA_ACT, 0, one, 1, 256, NULL});
CLASS(TCL_2) {
    CRE_TSK(2, {TA_ACT, 0, two, 2, 256, NULL});
    CRE_TSK(4, {TA_NULL, 0, end, 1, 256, NULL});
}
CLASS(TCL_3) { CRE_TSK(3, {TA_ACT, 0, three, 1, 256, NULL}); }
END
printf 'board-journal 1\nS 1 3\nS 2 5\nS 3 3\nS 1 2\nS 2 4\n' > "$work/locks.journal"
assembled "locks" "$work/locks.s"
files=("$work/image" "$work/locks.cfg" "$work/locks.journal")
cat > "$work/lines" << 'END'
{"ph":"X","pid":4,"tid":1,"dur":14,"ts":3,"cat":"held","name":"held by cpu 1"}
{"ph":"X","pid":1,"tid":2,"dur":5,"ts":6,"cat":"spins","name":"spins for lock 255"}
END
entries "${files[@]}"
has "a task that spins no more, since its processor runs another" "$work/lines" '"cat":"(held|spins)"'
printf '%10d %-4d%-11s%-20s%s\n' 10 3 'task 3' three+0x8 'act_tsk(4) = E_OK, task 4 ready, cpu 2 runs task 4' \
    > "$work/lines"
run_trace --cpu 2 "${files[@]}"
has "an event that concerns the chosen processor" "$work/lines" 'act_tsk'
run_trace --cpu 1 "${files[@]}"
grep -q act_tsk "$work/out" && fail "trace: an event that concerns another processor" "$(grep act_tsk "$work/out")"

# A line table that is written by hand, since no compiler writes this opcode for the board: DW_LNS_fixed_advance_pc
# (DWARF 4, 6.2.5.2) goes on by as many bytes as its operand says.
if have mips-linux-gnu-as "trace: a line table with fixed_advance_pc"; then
    cat > "$work/hand.s" << 'END'
        .set    noreorder
        .globl  main
main:   addiu   $t0, $zero, 1
        addiu   $t1, $zero, 2
        addiu   $t2, $zero, 3
end:    b       end
        nop
        .section .debug_line
        .4byte  last - first
first:  .2byte  2                       # DWARF 2
        .4byte  program - header
header: .byte   1, 1, -5, 14, 10        # bytes of an instruction, is_stmt, line base, line range, first special opcode
        .byte   0, 1, 1, 1, 1, 0, 0, 0, 1
        .byte   0                       # no folders
        .asciz  "by_hand.s"
        .byte   0, 0, 0, 0
program:
        .byte   0, 5, 2                 # DW_LNE_set_address
        .4byte  main
        .byte   3, 9, 1                 # DW_LNS_advance_line by 9, DW_LNS_copy
        .byte   9                       # DW_LNS_fixed_advance_pc
        .2byte  4
        .byte   3, 1, 1
        .byte   9
        .2byte  8
        .byte   0, 1, 1                 # DW_LNE_end_sequence
last:
END
    mips-linux-gnu-as -mips32 -o "$work/hand.o" "$work/hand.s" &&
        mips-linux-gnu-ld -e main -T examples/firmware.ld -o "$work/image" "$work/hand.o" ||
        fail "trace: a line table with fixed_advance_pc" "no object file"
    sed 's/0x80000000/main/' "$work/names.cfg" > "$work/hand.cfg"
    printf 'board-journal 1\nS 1 4\n' > "$work/hand.journal"
    printf '%s\n' 'by_hand.s:10' 'by_hand.s:11' 'by_hand.s:11' > "$work/lines"
    run_trace --instructions "$work/image" "$work/hand.cfg" "$work/hand.journal"
    grep -o 'by_hand.*' "$work/out" | cmp -s - "$work/lines" &&
        pass "trace: a line table with fixed_advance_pc" ||
        fail "trace: a line table with fixed_advance_pc" "$(grep by_hand "$work/out")"
fi

if have python3 "the timelines"; then
    # What a timeline says, read by a parser: slices of a track don't overlap, and cover it.
    for name in data_queue/data_queue interrupt/interrupt lost_update/racy deadlock/deadlock spin_lock/spin_lock; do
        example "$name"
        "$board" trace --format json "${files[@]}" > "$work/out"
        verdict "trace: $name as json" "$(python3 tests/programs/tracks "$work/out" 2>&1)"
    done
    # Random boards beside the model: states and since when, slices, what instructions change and load, and who spins.
    wrong=$(tests/model/traces "$board" 2>&1) && wrong=
    verdict "trace: random boards beside the model" "$(head -n 3 <<< "$wrong")"
fi

summary
