#!/bin/bash
# The tests of `--data`: tests/programs/data.sh PROGRAM. A program that writes the text at the label text, up to a byte
# 0, is given other texts.
. "$(dirname "$0")/check.sh"

cat > "$work/says.s" << 'END'
        .equ    put_chr, 40
        .equ    ext_ker, 41
_start: lui     $s0, %hi(text)
        addiu   $s0, $s0, %lo(text)
next:   lbu     $a0, ($s0)
        beqz    $a0, done
        addiu   $v0, $0, put_chr
        syscall
        b       next
        addiu   $s0, $s0, 1
done:   addiu   $v0, $0, ext_ker
        syscall
text:   .asciiz "Hi\n"
END
printf 'BOARD(1, 0x10000);\nCRE_TSK(1, {TA_ACT, 0, _start, 1, 256, NULL});\n' > "$work/says.cfg"
printf 'board-journal 2 big\nS 1 200\n' > "$work/says.journal"
"$board" asm "$work/says.s" "$work/says.elf" 2> "$work/err" || fail "data: the source" "$(cat "$work/err")"
printf 'Ho\n\0' > "$work/ho"
printf 'e' > "$work/e"
: > "$work/empty"
mkdir "$work/folder"

# console FILE: the bytes of the console that a report in a file shows.
console() { sed '1,/^console /d' "$1" | head -c -1; }

# says NAME WANTED OPTION..: `board run` with these options writes this text on the console, and warns of nothing.
says() {
    local name=$1 wanted=$2 wrong=
    shift 2
    "$board" run "$work/says.elf" "$work/says.cfg" "$work/says.journal" "$@" > "$work/out" 2> "$work/err" ||
        wrong="; status $?"
    [ ! -s "$work/err" ] || wrong="$wrong; standard error is '$(cat "$work/err")'"
    [ "$(console "$work/out")" = "$wanted" ] || wrong="$wrong; the console is '$(console "$work/out")'"
    verdict "data: $name" "$wrong"
}
says "none" Hi
says "by a symbol" Ho --data "text=$work/ho"
says "by an address" Ho --data "0x80000028=$work/ho"
says "several" Hee --data "0x80000029=$work/e" --data "0x8000002A=$work/e"
says "in any order" Hee --data "0x8000002a=$work/e" --data "0x80000029=$work/e"
says "empty files" Ho --data "text=$work/empty" --data "text=$work/ho" --data "0x80000029=$work/empty"
says "where nothing is loaded" Hi --data "0x8000C000=$work/ho"
"$board" run "$work/says.elf" "$work/says.cfg" "$work/says.journal" --data text=- < "$work/ho" > "$work/out" \
    2> "$work/err"
verdict "data: standard input" "$([ "$(console "$work/out")" = Ho ] || cat "$work/err" "$work/out")"

# A file with the data is one as another: all commands take it.
sed 's/Hi/Ho/' "$work/says.s" > "$work/other.s"
"$board" asm "$work/other.s" "$work/other.elf" 2> "$work/err"

# alike NAME COMMAND OPTION..: a command over the object file with data prints what it prints over that of the other
# text.
alike() {
    local name=$1 command=$2
    shift 2
    "$board" "$command" "$work/other.elf" "$@" > "$work/wanted" 2> "$work/wanted-err" < "$work/in"
    local wanted=$?
    "$board" "$command" "$work/says.elf" "$@" --data "text=$work/ho" > "$work/out" 2> "$work/err" < "$work/in"
    local got=$?
    check "data: $name" "$wanted" "$work/wanted" "$(cat "$work/wanted-err")" "$got"
}
printf 'goto 3\nregs 1\nmem 80000029\nnext\n' > "$work/in"
alike debug debug "$work/says.cfg" "$work/says.journal"
printf '$m80000028,4#8f$k#6b' > "$work/in"
alike gdb gdb "$work/says.cfg" "$work/says.journal"
: > "$work/in"
alike trace trace "$work/says.cfg" "$work/says.journal" --instructions
alike summary trace "$work/says.cfg" "$work/says.journal" --summary
alike explore explore "$work/says.cfg" --console 'Hi\n'
alike shrink shrink "$work/says.cfg" "$work/says.journal" --console 'Hi\n'
: > "$work/script"
"$board" race "$work/other.elf" "$work/says.cfg" "$work/script" 100 "$work/journal" > "$work/wanted" 2> "$work/err"
"$board" race "$work/says.elf" "$work/says.cfg" "$work/script" 100 "$work/journal" --data "text=$work/ho" \
    > "$work/out" 2> "$work/err"
check "data: race" 0 "$work/wanted" "" $?
"$board" try "$work/other.s" > "$work/wanted" 2> "$work/err"
"$board" try "$work/says.s" --data "text=$work/ho" > "$work/out" 2> "$work/err"
check "data: try, a source" 0 "$work/wanted" "" $?
"$board" try "$work/says.elf" --data "text=$work/ho" > "$work/out" 2> "$work/err"
check "data: try, an object file" 0 "$work/wanted" "" $?

# refused NAME STATUS ERROR OPTION..: `board run` with these options ends so, and writes nothing.
refused() {
    local name=$1 status=$2 error=$3
    shift 3
    "$board" run "$work/says.elf" "$work/says.cfg" "$work/says.journal" "$@" > "$work/out" 2> "$work/err" < /dev/null
    check "data: $name" "$status" "$work/nothing" "board: --data $error" $?
}
refused "no =" 2 "text: it isn't SYMBOL=FILE or 0xADDRESS=FILE" --data text
refused "no place" 2 "=a: it isn't SYMBOL=FILE or 0xADDRESS=FILE" --data =a
refused "no file" 2 "text=: it isn't SYMBOL=FILE or 0xADDRESS=FILE" --data text=
refused "no such symbol" 2 "texts=$work/ho: the object file has no such symbol" --data "texts=$work/ho"
refused "no number" 2 "0x8000002g=$work/ho: its address isn't a number of 32 bits, as 0x80001000" \
    --data "0x8000002g=$work/ho"
refused "a number of 33 bits" 2 "0x180000028=$work/ho: its address isn't a number of 32 bits, as 0x80001000" \
    --data "0x180000028=$work/ho"
refused "a missing file" 4 "text=$work/missing: can't open the file: No such file or directory (os error 2)" \
    --data "text=$work/missing"
refused "a folder" 4 "text=$work/folder: can't read the file: Is a directory (os error 21)" --data "text=$work/folder"
refused "below RAM" 1 "0x7FFFFFFF=$work/ho: the file has 4 bytes, which don't all lie in 80000000 to 80FFFFFF" \
    --data "0x7FFFFFFF=$work/ho"
refused "past the end" 1 "0x80FFFFFE=$work/ho: the file has 4 bytes, which don't all lie in 80000000 to 80FFFFFF" \
    --data "0x80FFFFFE=$work/ho"
refused "over other data" 1 "0x8000002B=$work/e: it lies over the bytes of another --data" \
    --data "text=$work/ho" --data "0x8000002B=$work/e"
refused "a place that isn't printable" 2 "?[31m=a: the object file has no such symbol" --data $'\033[31m=a'
"$board" run "$work/says.elf" "$work/says.cfg" "$work/says.journal" --data "0x8000FFFF=$work/ho" > "$work/out" \
    2> "$work/err"
got=$?
verdict "data: past the end of RAM" \
    "$([ $got = 1 ] && grep -q '^board: the boot: ' "$work/err" && [ ! -s "$work/out" ] ||
    echo "status $got; $(cat "$work/err")")"
"$board" run "$work/missing" "$work/says.cfg" "$work/says.journal" --data "text=$work/ho" > "$work/out" 2> "$work/err"
check "data: a missing object file" 4 "$work/nothing" \
    "board: can't open $work/missing: No such file or directory (os error 2)" $?
"$board" run "$work/says.cfg" "$work/says.cfg" "$work/says.journal" --data "text=$work/ho" > "$work/out" 2> "$work/err"
got=$?
mv "$work/err" "$work/with"
"$board" run "$work/says.cfg" "$work/says.cfg" "$work/says.journal" > "$work/out" 2> "$work/err"
verdict "data: no object file" "$([ $got = 1 ] && diff "$work/with" "$work/err" > /dev/null || cat "$work/with")"

# What a compiler makes says where instructions are, and how large a symbol is.
if have mips-linux-gnu-gcc "data: more than a symbol has"; then
    cat > "$work/sized.c" << 'END'
char text[4] = "abc";
int after = 7;
void main_of(void) { for (;;) after += text[0]; }
END
    printf 'SECTIONS { . = 0x80000000; .text : { *(.text*) } .data : { *(.data*) *(.sdata*) } /DISCARD/ : { *(*) } }\n' \
        > "$work/sized.ld"
    mips-linux-gnu-gcc -EB -mips32 -msoft-float -mno-abicalls -fno-pic -G0 -O1 -g -nostdlib -static \
        -Wl,-T,"$work/sized.ld" \
        -Wl,-e,main_of -Wl,--build-id=none -o "$work/sized.elf" "$work/sized.c" 2> "$work/err" ||
        fail "data: a program in C" "$(cat "$work/err")"
    printf 'BOARD(1, 0x10000);\nCRE_TSK(1, {TA_ACT, 0, main_of, 1, 256, NULL});\n' > "$work/sized.cfg"
    printf '12345' > "$work/five"
    "$board" run "$work/sized.elf" "$work/sized.cfg" "$work/says.journal" --data "text=$work/five" > "$work/out" \
        2> "$work/err"
    check "data: more than a symbol has" 1 "$work/nothing" \
        "board: --data text=$work/five: the file has 5 bytes, and the symbol 4" $?
    "$board" run "$work/sized.elf" "$work/sized.cfg" "$work/says.journal" --data "main_of=$work/e" > "$work/out" \
        2> "$work/err"
    mv "$work/out" "$work/wanted"
    head -n 1 "$work/err" > "$work/warned"
    verdict "data: over instructions" \
        "$(diff "$work/warned" - <<< "board: warning: --data main_of=$work/e: it lies over instructions")"
    # Lines of C stand as without data.
    "$board" trace "$work/sized.elf" "$work/sized.cfg" "$work/says.journal" --to 20 --instructions > "$work/wanted" \
        2> "$work/err"
    printf 'abc\0' > "$work/same"
    "$board" trace "$work/sized.elf" "$work/sized.cfg" "$work/says.journal" --to 20 \
        --instructions --data "text=$work/same" \
        > "$work/out" 2> "$work/err"
    check "data: the same bytes" 0 "$work/wanted" "" $?
fi

summary
