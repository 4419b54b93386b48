#!/bin/bash
# The tests of `board words`: tests/programs/words.sh PROGRAM. words.table has one a line; what none of its lines can
# say follows.
. "$(dirname "$0")/check.sh"
. tests/programs/growths.sh
front="board: standard input: "

# words NAME STATUS OUTPUT-FILE ERROR STEPS: runs `board words STEPS` on $work/in.
words() {
    "$board" words "$5" < "$work/in" > "$work/out" 2> "$work/err"
    check "words: $1" "$2" "$3" "$4" $?
}

# in_a_row NAME STEPS: the words of $work/in once more, after so many steps in a row that decoded instructions are used.
in_a_row() {
    local steps=$((18003 + $2)) got
    {
        echo 'start:'
        { cat "$work/in"; echo; } | tr -s '[:space:]' '\n' | sed -n 's/./.word 0x&/p'
        printf '.org 0x8000f000\nwarm: addiu $t0, $zero, 6000\nagain: addiu $t0, $t0, -1\n'
        printf 'bne $t0, $zero, again\nnop\nj start\nnop\n'
    } > "$work/row.s"
    printf 'BOARD(1, 0x10000);\nCRE_TSK(1, {TA_ACT, 0, warm, 1, 256, NULL});\n' > "$work/row.cfg"
    printf 'board-journal 2 big\nS 1 %s\n' "$steps" > "$work/row.journal"
    printf 'goto %s\nregs 1\n' "$steps" > "$work/row.in"
    : > "$work/all"
    "$board" asm "$work/row.s" "$work/row.elf" 2> "$work/err" &&
        "$board" debug "$work/row.elf" "$work/row.cfg" "$work/row.journal" < "$work/row.in" > "$work/all" 2> "$work/err"
    got=$?
    sed 1d "$work/all" > "$work/out"
    check "words, in a row: $1" 0 "$work/wanted" "" $got
}

while IFS='|' read -r name steps input status output error; do
    case $name in '' | '#'*) continue ;; esac
    printf '%b' "$input" > "$work/in"
    : > "$work/wanted"
    [ -z "$output" ] || printf '%s\n' "${output// \/ /$'\n'}" > "$work/wanted"
    words "$name" "$status" "$work/wanted" "${error:+$front$error}" "$steps"
    case $status$output$input in 0*fault* | 0*0000000[Cc]* | [!0]*) continue ;; esac
    in_a_row "$name" "$steps"
done < tests/data/words.table

# 16,384 words fill RAM; one more is too many, unless it is no word at all.
for ((i = 0; i < 16384; i++)); do echo 00000000; done > "$work/full"
cp "$work/full" "$work/in"
printf 'pc 80000004\n$29 80010000\n' > "$work/wanted"
words "16,384 words" 0 "$work/wanted" "" 1
{ cat "$work/full"; echo 00000000; } > "$work/in"
words "16,385 words" 1 "$work/nothing" "${front}there are more than 16,384 words" 1
{ cat "$work/full"; echo 00000000; echo xyz; } > "$work/in"
words "too many comes first" 1 "$work/nothing" "${front}there are more than 16,384 words" 1
{ cat "$work/full"; echo xyz; } > "$work/in"
words "a bad word behind 16,384" 1 "$work/nothing" "${front}line 16385: a word must have eight hexadecimal digits" 1

# As many steps as there may be.
echo '1000FFFF 00000000' > "$work/in"
printf 'pc 80000000\n$29 80010000\n' > "$work/wanted"
words "1,000,000 steps" 0 "$work/wanted" "" 1000000

# Reading and writing.
"$board" words 1 < / > "$work/out" 2> "$work/err"
check "words: input that can't be read" 4 "$work/nothing" "board: can't read standard input: $is_directory" $?
"$board" words 1 < /dev/null > /dev/full 2> "$work/err"
got=$?
: > "$work/out"
check "words: output that can't be written" 4 "$work/nothing" "board: can't write the output: $is_full" "$got"
# A pipe that nobody reads: it is open for writing alone.
mkfifo "$work/pipe"
exec 3<> "$work/pipe" 4> "$work/pipe" 3>&-
is_broken="$( (trap '' PIPE; echo x | LC_ALL=C cat 2>&1 >&4) | sed 's/.*: //') (os error 32)"
"$board" words 1 < /dev/null >&4 2> "$work/err"
check "words: a pipe that nobody reads" 4 "$work/nothing" "board: can't write the output: $is_broken" $?
exec 4>&-
head -c 134217729 /dev/zero | tr '\0' ' ' > "$work/in"
words "input above the limit" 4 "$work/nothing" "board: standard input is longer than 134,217,728 bytes" 1
head -c 134217728 "$work/in" > "$work/in2"
mv "$work/in2" "$work/in"
printf 'pc 80000004\n$29 80010000\n' > "$work/wanted"
words "input at the limit" 0 "$work/wanted" "" 1

# Memory.
(ulimit -v 100000; exec "$board" words 1 < "$work/in" > "$work/out" 2> "$work/err")
check "words: out of memory" 3 "$work/nothing" "board: out of memory" $?
echo '24080005 10000002 25080001 25080064 01084821' > "$work/in"
printf 'pc 80000014\n$8 00000006\n$9 0000000c\n$29 80010000\n' > "$work/wanted"
refuse_each words 3 "board: out of memory" "$board" words 4

summary
