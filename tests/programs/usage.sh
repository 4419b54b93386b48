#!/bin/bash
# The tests of the command line itself: tests/programs/usage.sh PROGRAM. usage.table has one a line; what none of its
# lines can say follows.
. "$(dirname "$0")/check.sh"

while IFS='|' read -r arguments first usage; do
    [ -n "$first" ] || continue # a comment, or an empty line
    eval "words=($arguments)"
    "$board" "${words[@]}" < /dev/null > "$work/out" 2> "$work/err"
    check_usage "usage: board $arguments" "$first" "$usage" $?
done < tests/data/usage.table

"$board" words $'\xff' < /dev/null > "$work/out" 2> "$work/err"
check "an argument that isn't UTF-8" 2 "$work/nothing" "board: an argument isn't UTF-8" $?
# Arguments that aren't printable: what is said of them is, on lines of its own.
odd=$'a\033[31m\tb\303\244\177'
"$board" words "$odd" < /dev/null > "$work/out" 2> "$work/err"
check_usage "an argument that isn't printable" \
    "error: invalid value 'a?[31m b???' for '<STEPS>': invalid digit found in string" "" $?
"$board" "$odd" < /dev/null > "$work/out" 2> "$work/err"
check_usage "a command that isn't printable" "error: unrecognized subcommand 'a?[31m b???'" "Usage: board <COMMAND>" $?
"$board" asm a b "$odd" < /dev/null > "$work/out" 2> "$work/err"
check_usage "one argument more that isn't printable" "error: unexpected argument 'a?[31m b???' found" \
    "Usage: board asm <SOURCE> <OUT>" $?
# Help that was asked for: tests/data/help has the whole texts.
# shows NAME ARGUMENT..: asks for the text of that name.
shows() {
    local name=$1
    shift
    "$board" "$@" < /dev/null > "$work/out" 2> "$work/err"
    check "help that was asked for: board $*" 0 "tests/data/help/$name" "" $?
}
for arguments in -h --help help; do shows board $arguments; done
for name in words asm run try race debug gdb trace journal explore shrink; do
    shows $name $name -h
    shows $name $name --help
    shows $name help $name
done
: > "$work/out"
for arguments in -h --help help 'words -h' 'help asm'; do
    # shellcheck disable=SC2086
    "$board" $arguments > /dev/full 2> "$work/err"
    check "help that can't be written: board $arguments" 0 "$work/nothing" "" $?
done
"$board" words > "$work/out" 2> /dev/full
got=$?
: > "$work/err"
check "a wrong command line that can't be answered" 2 "$work/nothing" "" "$got"

summary
