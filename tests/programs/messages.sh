#!/bin/bash
# What the program says of mistakes: tests/programs/messages.sh PROGRAM. messages.table has one a line: the kind of
# text, a name for the mistake, the text as `printf %b` reads it, and the message after `board: `. A text is a source
# (s), a configuration (c) or a journal (j) beside a right object file, configuration and journal, or a source whose
# object file is written all the same (w), of which there is a warning or nothing, or of which `try` has such a line
# (t).
. "$(dirname "$0")/check.sh"

example=examples/hello/hello
"$board" asm $example.s "$work/image" 2> "$work/err" || fail "messages: the example" "$(cat "$work/err")"

# told NAME MESSAGE GOT-STATUS: one message, with status 1, that fits into 240 columns.
told() {
    check "messages: $1" 1 "$work/nothing" "board: $2" "$3"
    [ "$(wc -c < "$work/err")" -le 241 ] || fail "messages: $1" "it has more than 240 columns"
}

: > "$work/out"
while IFS=$'\t' read -r kind name text message; do
    case $kind in '' | '#'*) continue ;; esac
    printf '%b' "$text" > "$work/text"
    if [ "$kind" = w ]; then
        "$board" asm "$work/text" "$work/made" 2> "$work/err"
        check "messages: $name" 0 "$work/nothing" "${message:+board: warning: $message}" $?
        continue
    fi
    if [ "$kind" = t ]; then
        "$board" try "$work/text" > "$work/out" 2>&1
        wrong=
        grep -qF -- "$message" "$work/out" || wrong="no line has '$message': $(head -c 600 "$work/out")"
        verdict "messages: $name" "$wrong"
        continue
    fi
    case $kind in
        s) "$board" asm "$work/text" "$work/made" 2> "$work/err" ;;
        c) "$board" run "$work/image" "$work/text" $example.journal > "$work/out" 2> "$work/err" ;;
        j) "$board" run "$work/image" $example.cfg "$work/text" > "$work/out" 2> "$work/err" ;;
    esac
    told "$name" "$message" $?
done < tests/data/messages.table

# Object files: each of these bytes of the example's file changed.
# changed NAME OFFSET BYTES MESSAGE
changed() {
    cp "$work/image" "$work/text"
    printf '%b' "$3" | dd of="$work/text" bs=1 seek="$2" conv=notrunc 2> "$work/nothing.err"
    "$board" run "$work/text" $example.cfg $example.journal > "$work/out" 2> "$work/err"
    told "$1" "the object file: $4" $?
}
changed "a file of 64 bits" 4 '\x02' \
    "it is ELF64, of 64 bits: wanted is ELF32, for MIPS32 (gcc: -march=mips32 -mabi=32)"
changed "a file of neither byte order" 5 '\x03' \
    "its byte order is neither big-endian (2) nor little-endian (1): byte 5 says neither"
changed "a file that isn't linked" 16 '\x00\x01' \
    "it isn't linked (type REL): link it, as mips-linux-gnu-ld -T examples/firmware.ld does"
changed "a shared object" 16 '\x00\x03' \
    "it is a shared object (type DYN): link it with -static and -no-pie"
changed "a file of an Arm" 18 '\x00\x28' \
    "it is for ARM (machine 40): wanted is MIPS (machine 8), as mips-linux-gnu-gcc makes it"
changed "a segment elsewhere" 60 '\x00\x40\x00\x00' \
    "it loads 44 bytes to 0x00400000, outside of 0x80000000 to 0x80ffffff: link it with -T examples/firmware.ld"

# Every line of the table, cut short and with each byte changed, still has a message of one line, or none.
for seed in 1 2 3; do
    while IFS=$'\t' read -r kind name text message; do
        [ "$kind" = s ] || continue
        printf '%b' "$text" | tr '$,(' "$seed;'" > "$work/text"
        "$board" asm "$work/text" "$work/made" 2> "$work/err"
        got=$?
        wrong=
        [ "$(wc -l < "$work/err")" -le 1 ] || wrong="more than a line: $(head -c 300 "$work/err")"
        [ "$(wc -c < "$work/err")" -le 241 ] || wrong="more than 240 columns"
        [ $got -le 1 ] || wrong="status $got"
        verdict "messages: $name, spoiled by $seed" "$wrong"
    done < tests/data/messages.table
done

summary
