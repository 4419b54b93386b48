#!/bin/bash
# Standard streams and the files that are written: tests/programs/streams.sh PROGRAM. Streams that are closed when the
# program starts: the system gives a file that is opened the number of a stream that is closed. It isn't taken for that
# stream: a command that needs one ends with status 4, and no file gets what a stream should have. `-` for standard
# input, which is read once. OUT, which is written whole or not at all, and is none of the inputs.
. "$(dirname "$0")/check.sh"
lay debug_five_words
five=$laid/debug_five_words
cp $five/image.elf "$work/image"
cp $five/config.cfg "$work/config"
cp $five/journal "$work/journal"
cp $five/source.s "$work/source"
printf 'nop 1\n' > "$work/faulty"
fault="board: the source: line 1, column 5: nop takes no operands, found 1"
echo 00000000 > "$work/words"
printf 'goto 3\nquit\n' > "$work/commands"
files="image config journal source faulty words commands"
# shellcheck disable=SC2086
(cd "$work" && cat $files) > "$work/all"
is_closed="$(LC_ALL=C cat 2>&1 <&- | sed -n '1s/.*: //p') (os error 9)"
unread="board: can't read standard input: $is_closed"
unwritten="board: can't write the output: $is_closed"
printf 'pc 80000004\n$29 80010000\n' > "$work/registers"
echo 'at 3' > "$work/answers"
"$board" run "$work/image" "$work/config" "$work/journal" > "$work/report"
printf 'board-journal 2 big\nS 1 10\n' > "$work/raced"

# closed STREAMS STATUS OUTPUT-FILE ERROR INPUT ARGUMENT..: runs the program without these streams, `0`, `1` or `2` or
# several, in the folder of its files. What is on a stream that is open is as it has to be, and no file has changed.
closed() {
    local streams=$1 status=$2 output=$3 error=$4 input=$5 got
    shift 5
    : > "$work/out"
    : > "$work/err"
    (
        cd "$work" || exit 9
        exec < "$input" > out 2> err
        case $streams in *0*) exec 0<&- ;; esac
        case $streams in *1*) exec 1>&- ;; esac
        case $streams in *2*) exec 2>&- ;; esac
        exec "$board" "$@"
    )
    got=$?
    case $streams in *1*) output=$work/nothing ;; esac
    case $streams in *2*) error= ;; esac
    # shellcheck disable=SC2086
    (cd "$work" && cat $files) | cmp -s - "$work/all" || got="$got with a changed file"
    check "streams: $1 without $streams" "$status" "$output" "$error" "$got"
}

# made STREAMS STATUS ERROR SOURCE WANTED: assembles without these streams. OUT is what it should be.
made() {
    printf 'something else' > "$work/object"
    closed "$1" "$2" "$work/nothing" "$3" words asm "$4" object
    verdict "streams: OUT of $4 without $1" "$(cmp "$work/object" "$5" 2>&1)"
}

for streams in 0 1 2 01 02 12 012; do
    case $streams in
    *0*) closed $streams 4 "$work/nothing" "$unread" words words 1
        closed $streams 4 "$work/nothing" "$unread" commands debug image config journal ;;
    *1*) closed $streams 4 "$work/nothing" "$unwritten" words words 1
        closed $streams 4 "$work/nothing" "$unwritten" commands debug image config journal ;;
    *) closed $streams 0 "$work/registers" "" words words 1
        closed $streams 0 "$work/answers" "" commands debug image config journal ;;
    esac
    case $streams in
    *1*) closed $streams 4 "$work/nothing" "$unwritten" words run image config journal ;;
    *) closed $streams 0 "$work/report" "" words run image config journal ;;
    esac
    case $streams in
    *1*) closed $streams 4 "$work/nothing" "$unwritten" words race image config nothing 10 object ;;
    *) closed $streams 0 "$work/report" "" words race image config nothing 10 object ;;
    esac
    verdict "streams: the journal of race without $streams" "$(cmp "$work/object" "$work/raced" 2>&1)"
    closed $streams 4 "$work/nothing" "board: can't open nosuch: $is_missing" words run image nosuch journal
    made $streams 0 "" source "$work/image"
    made $streams 1 "$fault" faulty "$work/nothing"
    closed $streams 2 "$work/nothing" "board: an argument isn't UTF-8" words words $'\xff'
done

# ---- - for standard input: from where it stands, and once

{ echo 'a line that another program reads'; cat "$work/journal"; } > "$work/behind"
{ read -r _; "$board" run "$work/image" "$work/config" -; } < "$work/behind" > "$work/out" 2> "$work/err"
check "streams: - from where it stands" 0 "$work/report" "" $?
"$board" run "$work/image" "$work/config" - <&- > "$work/out" 2> "$work/err"
check "streams: - that is closed" 4 "$work/nothing" "board: can't read the journal: $is_closed" $?

# twice WHAT ARGUMENT..: a command line that asks for more of standard input than can be had touches nothing.
twice() {
    local what=$1
    shift
    printf 'goto 3\n' > "$work/in"
    printf 'something else' > "$work/object"
    (cd "$work" && exec "$board" "$@") < "$work/in" > "$work/out" 2> "$work/err"
    check "streams: $*" 2 "$work/nothing" "board: $what" $?
    verdict "streams: OUT of $*" "$([ "$(cat "$work/object")" = 'something else' ] || echo "it has changed")"
}
several="several arguments are -, standard input, which is read once: name a file for all but one"
twice "$several" run - - journal
twice "$several" run - config -
twice "$several" trace image - -
twice "$several" race image - - 10 object
twice "$several" explore - - --out object
twice "$several" shrink - config - --out object
twice "$several" run image config - --data text=-
twice "$several" run image config journal --data text=- --data 0x80001000=-
twice "$several" try - --data text=- --keep object
for command in debug gdb; do
    reads="debug reads its commands from standard input: name a file in place of -"
    [ $command = debug ] || reads="gdb reads what GDB sends from standard input: name a file in place of -"
    twice "$reads" $command - config journal
    twice "$reads" $command image - journal
    twice "$reads" $command image config -
    twice "$reads" $command image config journal --data text=-
done
printf 'Ho\n\0' > "$work/text"
"$board" asm examples/hello/hello.s "$work/hello"
"$board" run "$work/hello" examples/hello/hello.cfg examples/hello/hello.journal --data text=- < "$work/text" 2>&1 |
    tail -n 2 > "$work/out"
verdict "streams: - for a file of data" "$(printf 'Ho\n\n' | cmp - "$work/out" 2>&1)"

# ---- what a search has found isn't lost with standard output

racy=examples/lost_update/racy
"$board" asm $racy.s "$work/racy"
explore=(explore "$work/racy" $racy.cfg --console 9 --ends)
shrink=(shrink "$work/racy" $racy.cfg $racy.journal --console 9 --ends)
"$board" "${explore[@]}" --out "$work/found" > "$work/told" 2> "$work/err"
verdict "streams: a schedule that fails" "$([ $? = 5 ] || echo "another status")"
"$board" "${shrink[@]}" --out "$work/left" > "$work/shrunk"
verdict "streams: a journal that is made shorter" "$([ $? = 0 ] || echo "another status")"
is_full_output="board: can't write the output: $is_full"
: > "$work/out"
"$board" "${explore[@]}" --out "$work/again" > /dev/full 2> "$work/err"
check "streams: explore with a full output" 4 "$work/nothing" "$is_full_output" $?
verdict "streams: OUT of explore with a full output" "$(cmp "$work/found" "$work/again" 2>&1)"
"$board" "${shrink[@]}" --out "$work/again" > /dev/full 2> "$work/err"
check "streams: shrink with a full output" 4 "$work/nothing" "$is_full_output" $?
verdict "streams: OUT of shrink with a full output" "$(cmp "$work/left" "$work/again" 2>&1)"
rm "$work/again"
"$board" "${explore[@]}" --out "$work/again" 2> "$work/err" | :
verdict "streams: OUT of explore with nobody who reads" "$(cmp "$work/found" "$work/again" 2>&1)"

# ---- OUT that can't be created is refused before the search, and one that is an input

"$board" asm examples/explore/philosophers_right.s "$work/dining"
endless=(explore "$work/dining" examples/explore/philosophers.cfg --preemptions 9 --fair 9)
timeout 20 "$board" "${endless[@]}" --out "$work/nosuch/out" > "$work/out" 2> "$work/err"
check "streams: OUT in no folder" 4 "$work/nothing" "board: can't open $work/nosuch/out: $is_missing" $?
timeout 20 "$board" "${endless[@]}" --out / > "$work/out" 2> "$work/err"
check "streams: OUT is a folder" 4 "$work/nothing" "board: can't open /: $is_directory" $?
"$board" "${shrink[@]}" --out "$work/nosuch/out" > "$work/out" 2> "$work/err"
check "streams: OUT of shrink in no folder" 4 "$work/nothing" "board: can't open $work/nosuch/out: $is_missing" $?
"$board" explore "$work/racy" $racy.cfg --console 7 --events 10 --out "$work/none" > /dev/null 2>&1
verdict "streams: OUT where none fails" "$([ ! -e "$work/none" ] || echo "it is there")"
cp $racy.cfg "$work/racy.cfg"
cp "$work/racy" "$work/racy.was"
ln -s racy "$work/linked"
ln "$work/racy.cfg" "$work/hard.cfg"
over="board: the search: --out names the object file or the configuration"
# over NAME STATUS ERROR OUT: OUT that is an input is refused, and the inputs stay as they were.
over() {
    (cd "$work" && exec "$board" explore racy racy.cfg --console 9 --ends --out "$4") > "$work/out" 2> "$work/err"
    check "streams: OUT of explore is $1" "$2" "$work/nothing" "$3" $?
    (cd "$work" && exec "$board" shrink racy racy.cfg found --console 9 --ends --out "$4") > "$work/out" 2> "$work/err"
    check "streams: OUT of shrink is $1" "$2" "$work/nothing" "$3" $?
    verdict "streams: the inputs after OUT was $1" \
        "$(cmp "$work/racy" "$work/racy.was" 2>&1; cmp "$work/racy.cfg" $racy.cfg 2>&1)"
}
is_input="it is the object file or the configuration"
over "IMAGE" 2 "$over" racy
over "CONFIG" 2 "$over" racy.cfg
over "IMAGE by another path" 4 "board: can't open ./racy: $is_input" ./racy
over "CONFIG by another path" 4 "board: can't open $work/racy.cfg: $is_input" "$work/racy.cfg"
over "a link to IMAGE" 4 "board: can't open linked: $is_input" linked
over "another name of CONFIG" 4 "board: can't open hard.cfg: $is_input" hard.cfg
rm "$work/hard.cfg"

# ---- OUT is written whole or not at all

# parts: what is left of files that were begun.
parts() {
    find "$work" -name '*.part'
}

# limited ARGUMENT..: runs the program where no file can grow. What it says goes through pipes.
limited() {
    # shellcheck disable=SC2016
    { bash -c 'trap "" XFSZ; ulimit -f 0; exec "$@"' limited "$board" "$@" 2>&1 > "$work/pipe.out" |
        cat > "$work/err"; } \
        2> /dev/null
}
unwhole="board: can't write the output: $(LC_ALL=C bash -c 'trap "" XFSZ; ulimit -f 0; echo > "$0"' "$work/limit" 2>&1 |
    sed 's/.*: //') (os error 27)"
mkfifo "$work/pipe.out"
# whole NAME OUT ARGUMENT..: where writing fails, OUT stays as it was, and nothing is left beside it.
whole() {
    local name=$1 out=$2
    shift 2
    cat < "$work/pipe.out" > "$work/out.limited" &
    limited "$@"
    wait
    verdict "streams: $name is written whole or not at all" "$(
        grep -qxF "$unwhole" "$work/err" || echo -n "; it says $(head -c 300 "$work/err")"
        [ "$(cat "$out")" = "$kept" ] || echo -n "; OUT has $(head -c 100 "$out")"
        [ -z "$(parts)" ] || echo -n "; there is $(parts)"
    )"
}
kept='something else'
for out in object linked.out; do
    printf '%s' "$kept" > "$work/object"
    ln -sf object "$work/linked.out"
    whole "OUT of explore ($out)" "$work/$out" "${explore[@]}" --out "$work/$out"
    whole "OUT of shrink ($out)" "$work/$out" "${shrink[@]}" --out "$work/$out"
done
printf '%s' "$kept" > "$work/try.cfg"
printf '%s' "$kept" > "$work/try.html"
whole "the configuration of try" "$work/try.cfg" try examples/hello/hello.s --keep "$work/try"
whole "the page of try" "$work/try.html" try examples/hello/hello.s --page "$work/try.html"
kept=
whole "OUT of race" "$work/object" race "$work/image" "$work/config" "$work/nothing" 10 "$work/object"

# What it is stays: a link, its permissions, a pipe, a device.
chmod 600 "$work/object"
"$board" "${explore[@]}" --out "$work/linked.out" > "$work/out" 2> "$work/err"
verdict "streams: OUT is a link" "$([ -L "$work/linked.out" ] ||
    echo "it is none any more"; cmp "$work/object" "$work/found" 2>&1)"
verdict "streams: the permissions of OUT" "$([ "$(stat -c %a "$work/object")" = 600 ] || stat -c %a "$work/object")"
cat < "$work/pipe.out" > "$work/again" &
"$board" "${explore[@]}" --out "$work/pipe.out" > "$work/out" 2> "$work/err"
wait
verdict "streams: OUT is a pipe" "$(cmp "$work/again" "$work/found" 2>&1)"
"$board" "${explore[@]}" --out /dev/full > "$work/out" 2> "$work/err"
check "streams: OUT is a device" 4 "$work/told" "$is_full_output" $?
ln "$work/object" "$work/hard"
"$board" "${explore[@]}" --out "$work/hard" > "$work/out" 2> "$work/err"
verdict "streams: OUT has another name" "$(cmp "$work/object" "$work/found" 2>&1)"
"$board" "${explore[@]}" --out /dev/stdout > "$work/out" 2> "$work/err"
verdict "streams: OUT is standard output" "$(cat "$work/out" | grep -q '^fails after' || echo "it isn't told")"
"$board" race "$work/image" "$work/config" "$work/nothing" 10 "$work/linked.out" > "$work/out" 2> "$work/err"
check "streams: OUT of race is a link" 0 "$work/report" "" $?
verdict "streams: a race into a link" "$([ -L "$work/linked.out" ] ||
    echo "it is none any more"; cmp "$work/object" "$work/raced" 2>&1)"
if [ "$(id -u)" != 0 ]; then
    mkdir "$work/shut"
    printf '%s' "$kept" > "$work/shut/object"
    chmod 500 "$work/shut"
    "$board" "${explore[@]}" --out "$work/shut/object" > "$work/out" 2> "$work/err"
    verdict "streams: OUT in a folder that takes no other file" "$(cmp "$work/shut/object" "$work/found" 2>&1)"
    chmod 700 "$work/shut"
    chmod 400 "$work/object"
    "$board" "${explore[@]}" --out "$work/object" > "$work/out" 2> "$work/err"
    verdict "streams: OUT that can't be written" "$([ $? = 4 ] || echo "another status")"
else
    skip "streams: OUT in a folder that takes no other file" "a user that isn't root"
fi
verdict "streams: nothing is left beside OUT" "$(parts)"
summary
