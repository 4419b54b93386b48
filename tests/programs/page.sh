#!/bin/bash
# The tests of the pages that `board trace --format html` makes: tests/programs/page.sh PROGRAM. What a browser shows of
# them is tested in a headless Chromium, driven by Python: tests/programs/pages has how. Where one of these is missing,
# that is skipped.
. "$(dirname "$0")/check.sh"

# page NAME OUTPUT ARGUMENT..: makes a page.
page() {
    "$board" trace --format html "${@:3}" < /dev/null > "$2" 2> "$work/err" || fail "page: $1" "$(cat "$work/err")"
}

# Runs of the examples, and of the scenes that have lines: `names`, and of each an image, a configuration and a journal.
names=()
# shown NAME IMAGE CONFIG JOURNAL: makes a page of a run.
shown() {
    page "$1" "$work/$1.html" "$2" "$3" "$4"
    names+=("$1")
    echo "$* $work/$1.html" >> "$work/pages"
}
for journal in examples/*/*.journal; do
    files=${journal%.journal}
    name=${files#examples/}
    name=${name//\//-}
    [ -e "$files.s" ] && [ -e "$files.cfg" ] || continue
    "$board" asm "$files.s" "$work/$name.elf" 2> "$work/err" || { fail "page: $name" "$(cat "$work/err")"; continue; }
    shown "$name" "$work/$name.elf" "$files.cfg" "$journal"
done
"$board" asm tests/data/page/functions.s "$work/functions.elf"
shown functions "$work/functions.elf" tests/data/page/functions.cfg tests/data/page/functions.journal
scenes=$(cd tests/scenes && printf '%s\n' */lines)
# shellcheck disable=SC2086
lay ${scenes//\/lines/}
for name in ${scenes//\/lines/}; do
    shown "$name" "$laid/$name/image.elf" "$laid/$name/config.cfg" "$laid/$name/journal"
done

lost=("$work/lost_update-racy.elf" examples/lost_update/racy.cfg examples/lost_update/racy.journal)
page "a part" "$work/part.html" --from 5 --to 20 "${lost[@]}"

# Its limits: 100,000 events, and 8 MiB for more than 1,000. Of more the last ones are shown.
printf 'board-journal 1\nS 1 60000\nS 2 40020\n' > "$work/long.journal"
shown last "${lost[@]:0:2}" "$work/long.journal"
# (A page that begins behind all calls has a deadlock and a circular wait all the same.)
{ cat examples/deadlock/deadlock.journal; echo "S 1 100000"; } > "$work/stuck.journal"
shown stuck "$work/deadlock-deadlock.elf" examples/deadlock/deadlock.cfg "$work/stuck.journal"
page "100,000 events" "$work/long.html" --to 100000 "${lost[@]:0:2}" "$work/long.journal"
# last NAME COUNT PAGE: a page has the last events alone, so many of them.
last() {
    verdict "page: $1" "$(grep -o '"from":[0-9]*,"asked":[0-9]*' "$3" | grep -qx "\"from\":$2,\"asked\":0" ||
        head -c 300 <(grep -o '"from":.*' "$3"))"
}
last "more than 100,000 events" 20 "$work/last.html"
last "100,000 events, all of them" 0 "$work/long.html"
last "a circular wait before the page" 42 "$work/stuck.html"
verdict "page: its circular wait" \
    "$(grep -q '"deadlock":1,"circle":\[\[1,2,\[\[2,32\]\]\],\[2,1,\[\[1,28\]\]\]\]' "$work/stuck.html" ||
        grep -o '"deadlock".\{80\}' "$work/stuck.html" || echo "it has none")"
cat > "$work/wide.cfg" << 'END'
BOARD(1, 0x10000);
CRE_TSK(1, {TA_ACT, 1, main, 1, 256, NULL});
CRE_TSK(2, {TA_ACT, 2, main, 1, 256, NULL});
END
{
    echo "main:   lui \$at, 0xffff"
    printf '        addiu $%d, $at, -1\n' 5 6 7 8 9 10 11 12 13 14 15 16 17 18 19 20 21 22 23 24 25 26 27 28 29 30 31
    echo "again:  addiu \$a0, \$0, 0"
    echo "        addiu \$v0, \$0, 10         # rot_rdq"
    echo "        syscall"
    echo "        b       again"
    echo "        nop"
} > "$work/wide.s"
"$board" asm "$work/wide.s" "$work/wide.elf"
printf 'board-journal 1\nS 1 100000\n' > "$work/wide.journal"
page "more than 8 MiB" "$work/half.html" "$work/wide.elf" "$work/wide.cfg" "$work/wide.journal"
last "more than 8 MiB" 50000 "$work/half.html"
[ "$(stat -c %s "$work/half.html")" -le 8388608 ] || fail "page: more than 8 MiB" "it has more"
page "the beginning of that" "$work/wide.html" --to 5000 "$work/wide.elf" "$work/wide.cfg" "$work/wide.journal"
{
    echo "main:"
    printf 'a%.0s' {1..60000}
    echo ":"
    printf '        nop%.0s\n' {1..160}
    echo "        b       main"
    echo "        nop"
} > "$work/named.s"
"$board" asm "$work/named.s" "$work/named.elf"
page "more than 8 MiB of names" "$work/named.out" --to 1001 "$work/named.elf" "$work/wide.cfg" "$work/wide.journal"
last "more than 8 MiB of names" 1 "$work/named.out"
page "1,000 events in more than 8 MiB" "$work/named.out" --to 1000 \
    "$work/named.elf" "$work/wide.cfg" "$work/wide.journal"
[ "$(stat -c %s "$work/named.out")" -gt 8388608 ] || fail "page: 1,000 events in more than 8 MiB" "they need less"
cmp -s <("$board" trace --format html --cpu 1 --instructions "${lost[@]}") "$work/lost_update-racy.html" ||
    fail "page: --cpu and --instructions" "they change the page"

# Lines of C, by the object file and by its text.
if have mips-linux-gnu-gcc "page: lines of C"; then
    make -s -C examples/c_program BUILD="$work/c" BOARD="$board" page > "$work/out" 2> "$work/err" ||
        fail "page: lines of C" "$(cat "$work/err")"
    page "lines of C" "$work/lines.html" "$work/c/firmware.elf" "$work/c/firmware.cfg" "$work/c/trace.journal"
    cp "$work/c/firmware.html" "$work/texts.html"
    verdict "page: the text of C" "$(grep -qE ',"firmware\.c:[0-9]+","' "$work/texts.html" || echo "it has none")"
fi

# The texts of an image whose names would be markup or script, if they became a part of the page.
hostile=("$work/hostile.elf" "$work/hostile.cfg" "$work/hostile.journal")
tests/programs/pages/hostile "$board" "${hostile[@]}" > "$work/out" 2>&1 ||
    fail "page: hostile names" "$(cat "$work/out")"
page "hostile names" "$work/hostile.html" "${hostile[@]}"

if have python3 "page: its data"; then
    check_script "page: its data" tests/programs/pages/data "$work"/*.html
    check_script "page: the program has the files of page/" page/make --check
fi
chromium=$(command -v chromium || command -v chromium-browser || command -v google-chrome)
if [ -z "$chromium" ] || ! command -v python3 > /dev/null; then
    skip "page: moves in a browser" chromium
else
    while read -r word name wrong; do
        name=${name%:}
        if [ "$word" = passed ]; then pass "page: $name in a browser"; else fail "page: $name in a browser" "$wrong"; fi
    done < <(tests/programs/pages/compare "$chromium" "$board" < "$work/pages" 2>&1)
    check_script "page: moves in a browser" tests/programs/pages/moves "$chromium" "$work"
    check_script "the sheet for printing" tests/programs/pages/sheet "$chromium" "$work/sheet.html"
    check_script "page: everybody can use it" tests/programs/pages/access "$chromium" "$work/functions.html" \
        "$work/lost_update-racy.html" "$work/deadlock-deadlock.html"
fi
summary
