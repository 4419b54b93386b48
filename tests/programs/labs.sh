#!/bin/bash
# The tests of the labs of docs/COURSE.md: tests/programs/labs.sh PROGRAM. Of each the beginning lacks what its checker
# should say, the solution nothing, and wrong solutions and cheats are refused. (The commands of the document are
# tests/programs/documents.sh's.)
. "$(dirname "$0")/check.sh"
export BOARD=$board

# begun LAB: leaves the lab's beginning in $work/mine, and solved LAB its solution.
begun() {
    rm -rf "$work/mine"
    mkdir "$work/mine"
    cp "examples/labs/$1/lab.s" "$work/mine"
}
solved() {
    rm -rf "$work/mine"
    cp -r "examples/labs/$1/solution" "$work/mine"
}

# How long a search may take here: on a machine with much other work the checkers' own 20 seconds may not suffice.
patient="--seconds 120"

# looked NAME LAB STATUS: what the checker says of $work/mine with the data of seed 7 is, line by line, what stands on
# standard input.
looked() {
    local got
    { cat; echo "the data were drawn by --seed 7"; } > "$work/wanted"
    # shellcheck disable=SC2086
    "examples/labs/$2/check" --seed 7 $patient "$work/mine" > "$work/out" 2> "$work/err"
    got=$?
    check "lab $2: $1" "$3" "$work/wanted" "" $got
    cmp -s "$work/wanted" "$work/out" || diff "$work/wanted" "$work/out" >&2
}

# refused NAME LAB TEXT: the checker says that something is missing, and one of its lines begins with TEXT.
refused() {
    local wrong=
    # shellcheck disable=SC2086
    "examples/labs/$2/check" --seed 7 $patient "$work/mine" > "$work/out" 2> "$work/err"
    [ $? = 1 ] || wrong="; the status isn't 1"
    cut -c "1-${#3}" "$work/out" | grep -qxF -- "$3" || wrong="$wrong; no line '$3'"
    [ ! -s "$work/err" ] || wrong="$wrong; it says $(head -n 2 "$work/err")"
    verdict "lab $2: $1" "${wrong:+$wrong: $(head -c 600 "$work/out")}"
}

# edited SED: changes the source, which has to become another one by that.
edited() {
    cp "$work/mine/lab.s" "$work/before"
    sed -i -E "$1" "$work/mine/lab.s"
    ! cmp -s "$work/before" "$work/mine/lab.s" || fail "a wrong solution" "sed changes nothing: $1"
}

use="[--seed N] [--seconds N] [--points FILE] FOLDER, where your lab.s of lab"
for lab in 1 2 3 4 5; do
    solved $lab
    looked "the solution" $lab 0 <<< "lab $lab: nothing is missing"
    for seed in 0 999999999; do
        # shellcheck disable=SC2086
        "examples/labs/$lab/check" --seed $seed $patient "$work/mine" > "$work/out" 2> "$work/err"
        printf 'lab %s: nothing is missing\nthe data were drawn by --seed %s\n' $lab $seed > "$work/wanted"
        check "lab $lab: the solution, seed $seed" 0 "$work/wanted" "" $?
    done
    # shellcheck disable=SC2086
    "examples/labs/$lab/check" $patient "$work/mine" > "$work/out" 2> "$work/err"
    status=$?
    seed=$(sed -n 's/^the data were drawn by --seed //p' "$work/out")
    printf 'lab %s: nothing is missing\nthe data were drawn by --seed %s\n' $lab "$seed" > "$work/wanted"
    check "lab $lab: the solution, a seed that is drawn" 0 "$work/wanted" "" $status
    for text in lab.s found lost.journal; do
        [ ! -f "$work/mine/$text" ] || sed -i 's/$/\r/' "$work/mine/$text"
    done
    looked "lines that end as on Windows" $lab 0 <<< "lab $lab: nothing is missing"
    solved $lab
    for arguments in "" "--seed x $work/mine" "--seed $work/mine" "--points $work/nosuch $work/mine" \
        "--other 1 $work/mine"; do
        # shellcheck disable=SC2086
        "examples/labs/$lab/check" $arguments > "$work/out" 2> "$work/err"
        check "lab $lab: a wrong command line: $arguments" 2 "$work/nothing" \
            "use: examples/labs/$lab/check $use $lab is" $?
    done
    BOARD=$work/nosuch "examples/labs/$lab/check" "$work/mine" > "$work/out" 2> "$work/err"
    check "lab $lab: no program" 2 "$work/nothing" \
        "there is no program $work/nosuch: make demo, in the clone's folder" $?
    rm "$work/mine/lab.s"
    refused "no source" $lab "there is no lab.s in $work/mine"
    begun $lab
    echo 'li $t0, 5' >> "$work/mine/lab.s"
    refused "a source that isn't assembled" $lab "lab.s: board: the source: line "
done

# Points: by the teachers' file all of them for the solution, and of another file what it says of parts that aren't
# lost.
solved 1
examples/labs/1/check --seed 7 --points examples/labs/teachers/points "$work/mine" > "$work/out" 2> "$work/err"
status=$?
printf 'lab 1: %s\n' "nothing is missing" "10 of 10 points" > "$work/wanted"
echo "the data were drawn by --seed 7" >> "$work/wanted"
check "points: a solution" 0 "$work/wanted" "" $status
begun 3
printf '3 %s\n' "lost 1" "found 2" "both 4" "all_schedules 8" > "$work/points"
echo "2 both 100" >> "$work/points"
examples/labs/3/check --seed 7 --points "$work/points" "$work/mine" > "$work/out" 2> "$work/err"
verdict "points: a beginning" "$(grep -qx 'lab 3: 2 of 15 points' "$work/out" || tail -n 2 "$work/out")"
rm "$work/mine/lab.s"
examples/labs/3/check --points "$work/points" "$work/mine" > "$work/out" 2> "$work/err"
verdict "points: no source" "$(grep -qx 'lab 3: 0 of 15 points' "$work/out" || tail -n 2 "$work/out")"
for lab in 1 2 3 4 5; do
    sed -nE '/^#/d; s/^.*(missing|none_fails) "?([a-z_]+)[". ].*/\2/p' examples/labs/$lab/check |
        grep -vxE 'all|end|data' | sort -u > "$work/parts"
    sed -nE "s/^$lab ([a-z_]+).*/\1/p" examples/labs/teachers/points | sort -u > "$work/worth"
    verdict "points: the parts of lab $lab" "$(diff "$work/parts" "$work/worth")"
done

# The students' archive: no solution and nothing for teachers is in it, and the checkers are.
have tar "the archive" && if [ -x build/board ]; then
    examples/labs/handout "$work/labs.tar.gz" > "$work/out" 2> "$work/err"
    check "the archive" 0 "$work/nothing" "" $?
    tar -xzf "$work/labs.tar.gz" -C "$work"
    verdict "the archive: what is left out" "$(find "$work/board-labs" | grep -E 'labs/.*(solution|teachers|handout)')"
    solved 2
    (unset BOARD && "$work/board-labs/examples/labs/2/check" --seed 7 "$work/mine") > "$work/out" 2> "$work/err"
    status=$?
    printf '%s\n' "lab 2: nothing is missing" "the data were drawn by --seed 7" > "$work/wanted"
    check "the archive: its checker" 0 "$work/wanted" "" $status
else
    skip "the archive" "make unpack, for build/board"
fi

# Lab 1. The beginning; with a nop in each slot; and what is wrong in its ways.
called="called with 74390, 8004, 92138, 99776, 15244, 15031, 55056, -70, and then with no numbers, sum and print should write '359569 0 ', and write"
other="with the numbers 79533, 94809, 51190, 22090, -62 it should write 247560, and writes"
spare="slots have an instruction that might be a nop, at"
begun 1
looked "the beginning" 1 1 << END
the console should have 189, and has ''
the board should be off in the end, by ext_ker of main
an exception at more+0x4: DBE: load from 00000000, outside RAM, in the delay slot of more
$called ''
so called, an exception at done: RI: jr \$ra is a branch or a jump, in the delay slot of more+0x14
END
edited '/^[^#]*[ \t](jal|b|beqz|jr)[ \t]/a\        nop'
looked "a nop in each slot" 1 1 << END
the console should have 189, and has '1111111111111111111111111111111111111111'
the board should be off in the end, by ext_ker of main
    trace --summary: task 1 ready since the start, at last (80000074)
$called '3333333333333333333333333333333333333333'
END
solved 1
edited 's/^( *)(sw|lw)( *)\$s0, 0\(\$sp\)/\1sll\3$0, $0, 0/'
refused "\$s0 isn't kept" 1 "the console should have 189, and has '"
solved 1
edited 's/^done: .*/        addiu   $s3, $s3, 1\n&/'
looked "another register isn't kept" 1 1 <<< "sum or print leaves other values in \$s0 to \$s7 or \$sp than were there"
solved 1
edited 's/^( *)addiu( *)\$sp, \$sp, 8 .*/\1addiu\2$sp, $sp, 4/'
refused "the stack isn't given back" 1 "the console should have 189, and has '18'"
solved 1
edited 's/^sum: (.*)/sum:    jr $ra\n        addiu $v0, $0, 189\n        \1/'
looked "a number that isn't worked out" 1 1 << END
$other '189'
$called '189 189 '
END
solved 1
edited 's/^sum: (.*)/sum:    addiu   $t0, $0, 5\n        beq     $a1, $t0, five\n        addiu   $v0, $0, 189\n&/'
edited 's/^sum:    beqz .*/        beqz    $a1, none\n        addu    $v0, $0, $0\n        ori     $v0, $0, 24674\n        lui     $t0, 1\n        jr      $ra\n        or      $v0, $v0, $t0\nfive:   jr      $ra\n        nop\nnone:   jr      $ra\n        nop\nold:    beqz    $a1, done/'
looked "numbers that aren't worked out, by how many there are" 1 1 << END
$other '189'
$called '90210 0 '
END
solved 1
edited 's/^numbers:/values:/; s/\(numbers\)/(values)/'
looked "another name of the data" 1 1 <<< "the line that begins with 'numbers:' should be left as it is"
solved 1
edited '/ bnez /{N; s/^(.*)\n(.*)$/\2\n\1\n        nop/}'
looked "three nops" 1 1 <<< "3 $spare more+0x14 done+0x4 print+0x24; all but 2 can be filled"
# What stands in a slot for show is a nop of another kind, or works out what nobody wants.
for show in 'sll $0, $0, 0' 'addiu $t9, $t9, 1' 'move $t0, $t0' 'lw $t9, -4($sp)'; do
    solved 1
    edited "/ bnez /{N; s/^(.*)\n(.*)\$/\2\n\1\n        $show/}"
    edited "s/^( *)nop\$/\1$show/"
    looked "for show: $show" 1 1 <<< "3 $spare more+0x14 done+0x4 print+0x24; all but 2 can be filled"
done
solved 1
edited '/ bnez /{N; s/^(.*)\n(.*)$/\2\n\1\n        nop/}; s/more/check_more/; s/done/check_done/; s/last/check_last/'
looked "labels as the checker's own" 1 1 \
    <<< "3 $spare check_more+0x14 check_done+0x4 print+0x24; all but 2 can be filled"
solved 1
edited 's/^sum:/add_up:/; s/jal( *)sum/jal\1add_up/'
refused "another name" 1 "lab.s with another main behind it, which calls sum and print: board: the source: line "

# Lab 2.
begun 2
{
    for task in 1 2 3 4 5; do
        echo "found: the exception of task $task and its place aren't there, or others (a line as '$task AdES loop+0x8')"
    done
    cat << 'END'
task 1 should write 1
task 1 still has an exception, at cell+0x4: DBE: store to 000000c0, outside RAM
task 2 should write 2
task 2 still has an exception, at unpack+0x14: AdEL: load from 800000e9, unaligned, in the delay slot of unpack+0x10
task 3 should write 3
task 3 still has an exception, at divide: Tr: division by zero, teq $t1, $zero, 7, of 00000000 and 00000000
task 4 should write 4
task 4 still has an exception, at add+0xc: Ov: add $t0, $t0, $t1, 70000000 + 60000000 is no signed word
task 5 still has an exception, at 00000000: IBE: returned from its function (a task ends by ext_tsk or ext_ker, a handler by ret_int), fetch outside RAM at 00000000, $ra is 00000000
END
} | looked "the beginning" 2 1
solved 2
sed -i 's/^4 Ov add+0xc/4 Ov add+0x8/' "$work/mine/found"
looked "another place" 2 1 \
    <<< "found: the exception of task 4 and its place aren't there, or others (a line as '4 AdES loop+0x8')"
solved 2
edited '/^( *)addiu( *)\$t1, \$t1, 1$/d; s/^divide: .*/divide: addiu   $t1, $0, 3/'
edited 's/^( *)addiu( *)\$t3, \$0, 4/\1addiu $t1, $t1, 1\n&/'
refused "a count that isn't worked out" 2 "with 'values: .word "
solved 2
edited 's/^( *)lwl .*/\1nop/; s/^( *)lwr .*/\1addiu   $a0, $0, 50/'
refused "a character that isn't loaded" 2 "with 'record: .byte 1, 0, 0, 0, "
solved 2
edited 's/^( *)lw      \$a0, -12.*/\1addiu   $a0, $0, 49/'
refused "a character that isn't the second cell's" 2 "with '.equ first, "
solved 2
edited 's/^fill: (.*)/fill:   b       tell\n        addiu   $a0, $0, first+1\n        \1/'
looked "a character that comes from no cell" 2 1 \
    <<< "task 1 should store to its four cells, and load its character from the second one"
solved 2
edited 's/^( *)srl     \$a0, \$t0, 26 .*/\1addiu   $a0, $0, 52/'
refused "a sum that isn't worked out" 2 "with 'readings: .word "
solved 2
edited 's/beq     \$t0, \$t1, tell/b       tell/'
refused "a kind that isn't looked at" 2 "with a record of kind "
solved 2
edited 's/^cells: /values: /; s/^values:  *\.word  *50/more: .word 50/'
refused "other names of the data" 2 "lab.s: board: the source: "
solved 2
edited 's/values/numbers/'
looked "another name of the values" 2 1 \
    <<< "the lines with '.equ first', 'record:', 'values:' and 'readings:' should be left as they are"
solved 2
edited 's/^fill: (.*)/fill:   addiu   $a0, $0, 49\n        addiu   $v0, $0, put_chr\n        syscall\n        addiu   $a0, $0, 50\n        addiu   $v0, $0, put_chr\n        syscall\n        b       none\n        nop\n        \1/'
edited 's/^unpack: (.*)/unpack: b       none\n        nop\n        \1/; s/^off: .*/none:   addiu   $v0, $0, ext_tsk\n        syscall\n&/'
refused "who writes for another" 2 "task 1 should write 1"
solved 2
edited 's/^last: (.*)/last:   \1\n        addiu   $v0, $0, put_chr\n        syscall\n        b       last\n        nop/'
refused "a task that never ends" 2 "task 5 should end by ext_tsk"
solved 2
edited 's/^tell: .*/&\n        syscall\n        addiu   $v0, $0, put_chr/'
refused "numbers twice" 2 "the console should have 12345, and has '112233445'"

# Lab 3.
begun 3
looked "the beginning" 3 1 << 'END'
there is no lost.journal, which board explore keeps by --out
the repair should be by ll and sc, on both processors: on processor 1 no sc has stored
the repair should be by ll and sc, on both processors: on processor 2 no sc has stored
with 5 seats the seller on processor 1 should sell some: it tries twice, and of its stores 1 take one away
a schedule of lab.s fails: fails after 64 events: the console is "4", not "3"
    event 0  processor 1 goes on at seller
    event 3  processor 1 stops before beq $t0, $zero, 0x8000001c at try+0x4; processor 2 goes on at seller
    event 29  processor 1 goes on at try+0x4
END
solved 3
edited '/^( *)beqz( *)\$t0, try$/d'
refused "nobody looks at the answer of sc" 3 "a schedule of lab.s fails: fails after "
solved 3
edited 's/^( *)beqz( *)\$t0, try$/\1beqz\2$t0, again/; s/^( *)sc .*/again: &/'
refused "only the store is tried again" 3 "a schedule of lab.s fails: fails after 300 events and the fair end: "
solved 3
edited 's/^( *)addiu( *)\$s1, \$0, 2 /\1addiu\2$s1, $0, 1 /'
refused "one try each" 3 "under lab.journal three seats should be sold: the console has '2'"
solved 3
edited 's/^tell: .*/&\n        addiu $s5, $0, 51/; s/addiu( *)\$a0, \$a0, 48 /addu\1$a0, $s5, $0 /'
refused "a number that isn't worked out" 3 "with 2 seats 2 should be sold: each seller tries twice; the console has '3'"
solved 3
edited 's/^seller: .*/&\n        bnez    $a0, give\n        nop/; s/\$s1, \$0, 2 /$s1, $0, 4 /'
edited '0,/^( *)addiu( *)\$a0, \$0, done/s//give:   addiu   $a0, $0, done/'
looked "one seller does all" 3 1 << 'END'
with 3 seats the seller on processor 1 should sell some: it tries twice, and of its stores 3 take one away
with 3 seats the seller on processor 2 should sell some: it tries twice, and of its stores 0 take one away
the repair should be by ll and sc, on both processors: on processor 2 no sc has stored
with 5 seats the seller on processor 1 should sell some: it tries twice, and of its stores 4 take one away
with 5 seats the seller on processor 2 should sell some: it tries twice, and of its stores 0 take one away
END
# A lock by ll and sc is right, too; and tell may wait in a loop. Such programs have many schedules.
solved 3
edited 's/^try: .*/try:    ll      $t1, %lo(lock)($s0)\n        bnez    $t1, try\n        addiu   $t1, $0, 1\n        sc      $t1, %lo(lock)($s0)\n        beqz    $t1, try\n        nop\n        lw      $t0, %lo(seats)($s0)/'
edited '/^( *)sc( *)\$t0/,/^( *)nop/d; s/^( *)beqz( *)\$t0, next/\1beqz\2$t0, free/'
edited 's/^( *)addiu( *)\$s2, \$s2, 1 .*/        sw      $t0, %lo(seats)($s0)\n&\nfree:   sw      $0, %lo(lock)($s0)/; s/^sold: .*/&\nlock:   .word 0/'
looked "a lock" 3 0 <<< "lab 3: nothing is missing"
cat > "$work/slow" << END
#!/bin/bash
[[ "\$*" != explore*"--preemptions \$SLOW"* ]] || exec sleep 60
exec $board "\$@"
END
chmod +x "$work/slow"
SLOW=2 BOARD=$work/slow examples/labs/3/check --seed 7 --seconds 1 "$work/mine" > "$work/out" 2> "$work/err"
status=$?
{
    echo "(no schedule with 1 preemption fails; those with 2 are too many for --seconds 1)"
    printf '%s\n' "lab 3: nothing is missing" "the data were drawn by --seed 7"
} > "$work/wanted"
check "lab 3: a search of 2 preemptions that takes too long" 0 "$work/wanted" "" $status
SLOW=1 BOARD=$work/slow examples/labs/3/check --seed 7 --seconds 1 "$work/mine" > "$work/out" 2> "$work/err"
status=$?
{
    echo "the schedules with 1 preemption are too many for --seconds 1"
    echo "the data were drawn by --seed 7"
} > "$work/wanted"
check "lab 3: a search of 1 preemption that takes too long" 1 "$work/wanted" "" $status
solved 3
cp examples/labs/3/lab.journal "$work/mine/lost.journal"
refused "a journal that doesn't fail" 3 "lost.journal: under it the first lab.s should write another number than 3"
for events in '2 37' '5 36' '36 2' '5 8'; do
    solved 3
    printf 'load %s\nstore %s\n' "${events% *}" "${events#* }" > "$work/mine/found"
    refused "other events, $events" 3 "found: 'load N' and 'store N' should be events of lost.journal"
done
solved 3
rm "$work/mine/found"
refused "no events" 3 "found: 'load N' and 'store N' should be events of lost.journal"

# Lab 4.
begun 4
looked "the beginning" 4 1 << 'END'
with the letters ckxf and room for 1 it should write these, and writes 'ccffffffffffffffffffffffffffffffffffffff'
    trace --summary: refused: psnd_dtq(1, 0x0000006b) = E_TMOUT at event 12, at send+0xc (80000014), and 2 times after it
    trace --summary: refused: prcv_dtq(1) = E_TMOUT at event 33, at consumer+0x8 (80000030), and 142 times after it
a schedule of lab.s fails: fails after 50 events: the console is "cc", not "ckxf"
    event 0  processor 1 goes on at producer
    event 34  processor 2 goes on at consumer
END
solved 4
edited 's/^( *)\.equ( *)snd_dtq, 33/\1.equ\2snd_dtq, 34/'
refused "a producer that doesn't wait" 4 "a schedule of lab.s fails: fails after "
solved 4
edited 's/^( *)\.equ( *)snd_dtq, 33/\1.equ\2snd_dtq, 36/'
refused "the oldest datum given up" 4 "a schedule of lab.s fails: fails after "
solved 4
edited 's/^consumer: (.*)/consumer: lui   $s0, %hi(items)\n        addiu   $s0, $s0, %lo(items)\ntake:   \1/; s/ b       consumer/ b       take/'
edited 's/^( *)beqz    \$v1, end/        lw      $v1, 0($s0)\n        addiu   $s0, $s0, 4\n&/'
looked "a consumer that loads the letters itself" 4 1 <<< "the consumer should load none of the items itself"
edited 's/^items: .*/letters:\n&/; s/(hi|lo)\(items\)/\1(letters)/'
looked "a consumer that loads the letters by another name" 4 1 <<< "the consumer should load none of the items itself"
solved 4
edited 's/^consumer: (.*)/consumer: lui   $s0, %hi(items)\n        addiu   $s0, $s0, %lo(items)\ntake:   lw      $v1, 0($s0)\n        addiu   $s0, $s0, 4\n        b       took\n        nop\n        \1/'
edited 's/ b       consumer/ b       take/; s/^( *)beqz    \$v1, end/took:   beqz    $v1, end/'
refused "no data queue" 4 "each letter and the 0 should come through the data queue, in their order; these did: "
solved 4
edited 's/^consumer: .*/&\n        addiu   $t0, $0, 97/; s/^( *)move    \$a0, \$v1 .*/        move    $a0, $t0/; s/^( *)nop$/        addiu   $t0, $t0, 1/'
refused "letters that aren't received" 4 "with the letters "
solved 4
edited 's/snd_dtq, 33/snd_dtq, 34/; s/rcv_dtq, 37/rcv_dtq, 38/; s/^( *)bnez    \$a1, send/        bnez    $v0, again\n        nop\n&/'
edited 's/^( *)addiu   \$v0, \$0, snd_dtq/again:  addiu   $v0, $0, snd_dtq/; s/^( *)beqz    \$v1, end/        bnez    $v0, consumer\n        nop\n&/'
looked "calls that are asked for again" 4 0 <<< "lab 4: nothing is missing"

# Lab 5.
begun 5
looked "the beginning" 5 1 << 'END'
with ticks at events 29 and 36 it should write Zc, and writes 'cZ'
with ticks at events 30 and 42 it should write Zc, and writes 'cZ'
with ticks at events 36 and 40 it should write Zc, and writes 'cZ'
a schedule of lab.s fails: fails after 64 events: the console is "c", not "Zc"
    event 0  processor 1 goes on at high
    event 9  a tick
    event 10  a tick
END
begun 5
edited 's/^low: (.*)/low:    addiu   $a0, $0, bus\n        addiu   $v0, $0, wai_sem\n        syscall\n        addiu   $a0, $0, 0\n        addiu   $a1, $0, 1\n        addiu   $v0, $0, chg_pri\n        syscall\n        b       had\n        nop\n        \1/'
edited '/^had:/!{/^low:/,/^use:/s/^        lui     \$s0, %hi\(given\)/had:&/; s/^had:        /had:    /}'
looked "as urgent as high, but only once it has the bus" 5 1 << 'END'
a schedule of lab.s fails: fails after 64 events: the console is "c", not "Zc"
    event 0  processor 1 goes on at high
    event 9  a tick
    event 10  a tick
END
solved 5
edited '/^high:/,/^middle:/{/addiu   \$a0, \$0, bus/,/syscall/d}'
looked "high doesn't take the bus" 5 1 \
    <<< "who hasn't got the bus should neither store to device nor write high's letter"
solved 5
edited '/^low:/,/^use:/{/addiu   \$a0, \$0, bus/,/syscall/d}'
looked "low doesn't take the bus" 5 1 << 'END'
who hasn't got the bus should neither store to device nor write high's letter
with a tick at event 29 low should have the bus then: nobody else has wanted it
with a tick at event 30 low should have the bus then: nobody else has wanted it
with a tick at event 36 low should have the bus then: nobody else has wanted it
END
begun 5
edited 's/^low: (.*)/low:    addiu   $a0, $0, 5\n        addiu   $v0, $0, dly_tsk\n        syscall\n        \1/'
looked "low waits until the others are done" 5 1 << 'END'
task 3 should store 10 times to device, as at the beginning
with a tick at event 29 low should have the bus then: nobody else has wanted it
with a tick at event 30 low should have the bus then: nobody else has wanted it
with a tick at event 36 low should have the bus then: nobody else has wanted it
END
begun 5
edited 's/^work: .*/work:   addiu   $t0, $t0, -2/'
looked "another middle" 5 1 <<< "the lines of middle should be left as they are"
begun 5
edited '/^high:/,/^middle:/{/addiu   \$v0, \$0, put_chr/,/syscall/d}'
edited '/^high:/,/^middle:/{0,/syscall/s/^( *)syscall .*/&\n        lui     $s0, %hi(given)\n        lw      $a0, %lo(given+8)($s0)\n        addiu   $v0, $0, put_chr\n        syscall/}'
looked "a letter before high has the bus" 5 1 \
    <<< "who hasn't got the bus should neither store to device nor write high's letter"
solved 5
edited 's/^use: .*/        sw      $t0, %lo(device)($s1)\nuse:    addiu   $t1, $0, 0/'
refused "low stores once" 5 "task 3 should store "
solved 5
edited 's/^( *)lw      \$a0, %lo\(given\+8\).*/\1addiu   $a0, $0, 72/'
refused "a letter that isn't loaded" 5 "with ticks at events "
solved 5
edited 's/^given:/data: given:/'
looked "another name of the data" 5 1 <<< "the line that begins with 'given:' should be left as it is"
# High may do it for low, before it asks for the bus itself; and so may low without dispatching.
begun 5
edited '/^high:/,/^middle:/s/^( *)addiu   \$v0, \$0, wai_sem/        addiu   $a0, $0, 3\n        addiu   $a1, $0, 1\n        addiu   $v0, $0, chg_pri\n        syscall\n        addiu   $a0, $0, bus\n&/'
looked "high makes low as urgent as itself" 5 0 <<< "lab 5: nothing is missing"
begun 5
edited 's/^( *)\.equ( *)put_chr, 40/&\n        .equ    dis_dsp, 12\n        .equ    ena_dsp, 13\n        .equ    pol_sem, 26/'
edited '/^low:/,/given:/{s/^low: (.*)/low:    addiu   $v0, $0, dis_dsp\n        syscall\n        \1/; s/wai_sem/pol_sem/; s/^( *)addiu   \$v0, \$0, ext_tsk/\1addiu   $v0, $0, ena_dsp\n        syscall\n&/}'
looked "no dispatching while low has the bus" 5 0 <<< "lab 5: nothing is missing"

# The table of COURSE.md, "What to write instead": each right column is assembled, and does what the left one says.
# instead LEFT: the lines of the right column of the row that begins so.
instead() {
    awk -v left="| \`$1\`" 'index($0, left) == 1 { sub(/ \|$/, ""); sub(/.* \| /, ""); print }' docs/COURSE.md |
        sed 's/<br>/\n/g' | tr -d '\140'
}

# written SHOWN T0 T1 T2 LEFT: what is written of SHOWN, a register or a word, or where LEFT is a branch of whether it
# is taken, by a program that has these values in $t0 to $t2, and then the right column.
written() {
    {
        printf 'main: '
        for it in "0 $2" "1 $3" "2 $4"; do printf ' addiu $t%s, $0, %s\n' ${it% *} "${it#* }"; done
        instead "$5"
        case $1 in
            taken) printf ' b show\n addu $a0, $0, $0\nthere: addiu $a0, $0, 1\n' ;;
            name) printf ' lui $a0, %%hi(name)\n b show\n lw $a0, %%lo(name)($a0)\n' ;;
            *) printf ' addu $a0, $0, %s\n' "$1" ;;
        esac
        printf 'show: jal put_number\n nop\n addiu $v0, $0, 41\n syscall\n'
        sed -n '/^put_number/,/^text/p' examples/labs/from_mars.s | grep -v '^text'
        printf ' .equ put_chr, 40\n .align 2\nname: .word 1234, 5678\n'
    } > "$work/instead.s"
    "$board" try "$work/instead.s" 2> "$work/err" | head -n 1
}

rows=0
while read -r left; do
    { echo "name: there: main:"; instead "$left"; echo " nop"; } > "$work/instead.s"
    "$board" asm "$work/instead.s" "$work/instead.elf" 2> "$work/err"
    verdict "instead of $left: it is assembled" "$(cat "$work/err")"
    rows=$((rows + 1))
done < <(sed -n '/^## What to write instead/,$p' docs/COURSE.md | sed -nE 's/^\| `([^`]*)`[^|]* \| `.*/\1/p')
verdict "instead: the rows of the table" "$([ $rows -gt 20 ] || echo "there are $rows")"
while IFS='|' read -r left shown values wanted; do
    # shellcheck disable=SC2086
    got=$(written "$shown" $values "$left")
    verdict "instead of $left, with $values" "$([ "$got" = "$wanted" ] || echo "$shown is $got, not $wanted")"
done << 'END'
li $t0, 5|$t0|7 7 7|5
li $t0, 0x12345678|$t0|7 7 7|305419896
li $t0, 'A'|$t0|7 7 7|65
lw $t0, name|$t0|7 7 7|1234
lw $t0, name($t1)|$t0|7 4 7|5678
sw $t0, name|name|77 7 7|77
add $t0, $t0, 1|$t0|41 7 7|42
sub $t0, $t0, 1|$t0|41 7 7|40
mul $t0, $t1, 10|$t0|7 -21 7|-210
div $t0, $t1, $t2|$t0|7 -23 5|-4
rem $t0, $t1, $t2|$t0|7 -23 5|-3
not $t0, $t1|$t0|7 5 7|-6
neg $t0, $t1|$t0|7 5 7|-5
seq $t0, $t1, $t2|$t0|7 5 5|1
seq $t0, $t1, $t2|$t0|7 5 6|0
beq $t0, 5, there|taken|5 7 7|1
beq $t0, 5, there|taken|6 7 7|0
blt $t0, $t1, there|taken|-1 1 7|1
blt $t0, $t1, there|taken|3 3 7|0
blt $t0, $t1, there|taken|1 -1 7|0
bge $t0, $t1, there|taken|-1 1 7|0
bge $t0, $t1, there|taken|3 3 7|1
bge $t0, $t1, there|taken|1 -1 7|1
bgt $t0, $t1, there|taken|-1 1 7|0
bgt $t0, $t1, there|taken|3 3 7|0
bgt $t0, $t1, there|taken|1 -1 7|1
ble $t0, $t1, there|taken|-1 1 7|1
ble $t0, $t1, there|taken|3 3 7|1
ble $t0, $t1, there|taken|1 -1 7|0
END
summary
