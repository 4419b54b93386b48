#!/bin/bash
# The tests of the lines of lines.table: tests/programs/lines.sh PROGRAM.
. "$(dirname "$0")/check.sh"
no="board: the source: line 1"

# assembles SOURCE OBJECT: assembles a source whose escapes are as printf's.
assembles() {
    printf '%b' "$1" > "$work/source"
    "$board" asm "$work/source" "$2" > "$work/out" 2> "$work/err"
}

while IFS='|' read -r kind source other before; do
    case $kind in
    '' | '#'*) ;;
    no)
        wrong=
        assembles "$source" "$work/object"
        got=$?
        [ "$got" = 1 ] || wrong="; status $got, wanted 1"
        [[ "$(cat "$work/err")" == "$no"[,:]* ]] || wrong="$wrong; standard error is '$(cat "$work/err")'"
        verdict "lines: no '$source'" "$wrong"
        ;;
    =)
        wrong=
        { assembles "$before\n$source" "$work/object" && assembles "$before\n$other" "$work/wanted"; } ||
            wrong="; $(cat "$work/err")"
        cmp -s "$work/object" "$work/wanted" || wrong="$wrong; another object file than that of '$other'"
        verdict "lines: '$source'" "$wrong"
        ;;
    *) fail "lines: $kind|$source" "there is no such kind of row" ;;
    esac
done < tests/data/lines.table
[ "$passed" -gt 0 ] || fail "lines" "lines.table has no row"
summary
