#!/bin/bash
# The tests of `board asm`: tests/programs/asm.sh PROGRAM. asm.table has one a line; what none of its lines can say
# follows.
. "$(dirname "$0")/check.sh"
. tests/programs/growths.sh
front="board: the source: "

# asm NAME STATUS ERROR: runs `board asm` on $work/source; OUT, with something in it before, has to be as $work/wanted
# then.
asm() {
    printf 'something else' > "$work/object"
    "$board" asm "$work/source" "$work/object" > "$work/out" 2> "$work/err"
    local got=$?
    cmp -s "$work/object" "$work/wanted" || got="$got with another OUT"
    check "asm: $1" "$2" "$work/nothing" "$3" "$got"
}

# Each line of asm.table is a source with the bytes of its object file, and what is warned of, or its fault.
while IFS='|' read -r name source status bytes error; do
    case $name in '' | '#'*) continue ;; esac
    printf '%b' "$source" > "$work/source"
    printf '%b' "$(sed 's/[0-9a-f][0-9a-f]/\\x&/g' <<< "${bytes// /}")" > "$work/wanted"
    [ "$status" != 0 ] || error=${error:+warning: the source: $error}
    asm "$name" "$status" "${error:+${front%the source: }${error/#line/the source: line}}"
done < tests/data/asm.table

# Its files: the source is opened first, and OUT is emptied before the source is read.
: > "$work/wanted"
printf 'something else' > "$work/object"
"$board" asm "$work/nosuch" "$work/object" > "$work/out" 2> "$work/err"
got=$?
[ "$(cat "$work/object")" = 'something else' ] || got="$got, and OUT was changed"
check "asm: no source" 4 "$work/nothing" "board: can't open $work/nosuch: $is_missing" "$got"
echo nop > "$work/source"
"$board" asm "$work/source" "$work" > "$work/out" 2> "$work/err"
check "asm: OUT is a directory" 4 "$work/nothing" "board: can't open $work: $is_directory" $?
"$board" asm "$work/source" /dev/full > "$work/out" 2> "$work/err"
check "asm: OUT can't be written" 4 "$work/nothing" "board: can't write the output: $is_full" $?
printf 'something else' > "$work/object"
"$board" asm / "$work/object" > "$work/out" 2> "$work/err"
got=$?
[ -s "$work/object" ] && got="$got, and OUT isn't empty"
check "asm: a source that can't be read" 4 "$work/nothing" "board: can't read the source: $is_directory" "$got"
head -c 134217729 /dev/zero > "$work/source"
asm "a source above the limit" 4 "board: the source is longer than 134,217,728 bytes"

# What a name holds that isn't printable ASCII is shown as '?', and no more than its first 255 bytes are.
name=$'no\nsuch\t\e[31m\xc3\xa4 '
"$board" asm "$name" "$work/object" > "$work/out" 2> "$work/err"
check "asm: a name of two lines" 4 "$work/nothing" "board: can't open no?such ?[31m?? : $is_missing" $?
echo nop > "$work/source"
"$board" asm "$work/source" "$work/$name/out" > "$work/out" 2> "$work/err"
check "asm: an OUT of two lines" 4 "$work/nothing" "board: can't open $work/no?such ?[31m?? /out: $is_missing" $?
long=$(printf 'ab/%.0s' {1..100})
"$board" asm "$long" "$work/object" > "$work/out" 2> "$work/err"
check "asm: a long name" 4 "$work/nothing" "board: can't open ${long:0:255}: $is_missing" $?

# field OFFSET SIZE: so many bytes of OUT from an offset on, in hexadecimal.
field() {
    od -An -v -tx1 -j "$1" -N "$2" "$work/object" | tr -d ' \n'
}

# All addresses that can be filled, in one segment, and as many segments as a file may count: from 0x80000000 on, every
# 8 bytes one of 4 bytes.
echo '.space 16777216' > "$work/source"
"$board" asm "$work/source" "$work/object" > "$work/out" 2> "$work/err"
got=$?
[ "$(field 68 8)" = 0100000001000000 ] || got="$got, and sizes $(field 68 8)"
check "asm: 16,777,216 zeros" 0 "$work/nothing" "" "$got"
# segments COUNT: puts a source of so many segments into $work/source.
segments() {
    awk -v count="$1" 'BEGIN {
        print ".equ ram, 0x80000000"
        for (i = 0; i < count; i++) printf ".org ram+%d\n.word %d\n", 8 * i, i
    }' > "$work/source"
}
segments 65534
"$board" asm "$work/source" "$work/object" > "$work/out" 2> "$work/err"
got=$?
last=$((52 + 65533 * 32))
# Their count, the last one's address, and its word.
found="$(field 44 2) $(field $((last + 8)) 4) $(field $((0x$(field $((last + 4)) 4))) 4)"
[ "$found" = 'fffe 8007ffe8 0000fffd' ] || got="$got, and $found"
check "asm: 65,534 segments" 0 "$work/nothing" "" "$got"
segments 65535
: > "$work/wanted"
asm "65,535 segments" 1 "${front}its image has more segments or bytes than an object file can hold"

# warning EXAMPLE: what is warned of an example, if anything: words that are no program, and lab 1, of which it is
# right.
warning() {
    local slot="stands in the slot of the branch on line" exception="which is an exception where it is executed"
    local at="stands at the slot of the" done="which does what is there before it goes" nop="write nop before it"
    case $1 in
        examples/delay_slot.s) echo "line 6: what comes here runs off the end of the program: end a task by ext_tsk, the" \
            "board by ext_ker" ;;
        examples/labs/1/lab.s)
            echo "line 10: move reads the answer in the slot of the jal on line 9, before what that calls is done: $nop"
            echo "line 23: jr $slot 22, $exception"
            echo "line 26: the label print $at jr on line 23, $done: $nop"
            echo "line 31: jal $slot 30, $exception"
            echo "line 32: the label last $at jal on line 31, $done: $nop"
            echo "line 38: the label numbers $at jr on line 35, $done: $nop"
            ;;
    esac | sed 's/^/board: warning: the source: /'
}

# The examples, which readelf reads too; but firmware.s, whose source is one for GNU as.
readelf=
have readelf "readelf of the examples" && readelf=yes
for example in examples/*.s examples/*/*.s examples/labs/*/lab.s examples/labs/*/solution/lab.s; do
    [ "$example" = examples/firmware.s ] && continue
    : > "$work/object"
    "$board" asm "$example" "$work/object" > "$work/out" 2> "$work/err"
    got=$?
    [ -s "$work/object" ] || got="$got, and OUT is empty"
    check "asm: $example" 0 "$work/nothing" "$(warning "$example")" "$got"
    if [ $readelf ]; then
        readelf -a "$work/object" > /dev/null 2> "$work/err"
        got=$?
        : > "$work/out"
        check "readelf of $example" 0 "$work/nothing" "" "$got"
    fi
done

# Memory: a source with every kind of content, several labels on a line, and enough names and pieces that each table
# grows more than once.
{
    printf '_start: begin: lui $t0, %%hi(d)\nlw $t1, %%lo(d)($t0)\nnop\n.org 0x80000100\nd: .word 7, 8\n.ascii "x"\n'
    printf '.asciiz "yz"\n.align 3\n.half 1, 2, 3\n.space 40\n.byte 9\n.equ e, 5\n'
    for n in {1..40}; do printf '.org 0x%x\nl%d: m%d: .space %d\n' $((0x80000400 + n * 64)) "$n" "$n" "$n"; done
} > "$work/source"
"$board" asm "$work/source" "$work/wanted"
: > "$work/in"
refuse_each asm 3 "board: out of memory" "$board" asm "$work/source" /dev/stdout

# A source of which 20 of 30 lines are warned, which each takes memory: the object file is the same where that is
# refused.
{
    echo '_start: nop'
    for n in {1..30}; do printf 'b _start\nb _start\nnop\n'; done
} > "$work/source"
"$board" asm "$work/source" "$work/wanted" 2> "$work/err"
wrong=
[ "$(wc -l < "$work/err")" = 20 ] || wrong="$(wc -l < "$work/err") lines"
grep -qv '^board: warning: the source: line [0-9]*: b stands in the slot of the branch on line [0-9]*, ' "$work/err" &&
    wrong="$wrong; $(head -c 300 "$work/err")"
verdict "asm: twenty warnings of thirty" "$wrong"
refuse_each "asm, with warnings" 3 "board: out of memory" "$board" asm "$work/source" /dev/stdout

# The same source assembled by GNU as.
check_script "asm beside GNU as" tests/programs/asm_binutils.sh "$board"

summary
