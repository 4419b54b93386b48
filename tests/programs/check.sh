# shellcheck shell=bash
# What the tests of every command share: each tests/programs/NAME.sh reads this file, is run with the program, and ends
# with `summary`. $board is the program, $work a folder for files, $work/nothing an empty one. Where the environment's
# VERDICTS names a file, each test adds a line to it: `passed tests/programs/NAME.sh: TEST`, or `failed` or `skipped` in
# front.
set -u
unset MAKEFLAGS MAKELEVEL MFLAGS
[ $# = 1 ] || { echo "use: $0 PROGRAM" >&2; exit 2; }
board=$(realpath -- "$1") || exit 2
cd "$(dirname "${BASH_SOURCE[0]}")/../.." || exit 2
work=$(mktemp -d) || exit 2
trap 'rm -rf "$work"' EXIT
# Python without what this machine adds to it (a shim, packages), which takes longer to load than most tests. The folder
# of such a python3 is PLAIN_PYTHON.
if [ -z "${PLAIN_PYTHON:-}" ] && command -v python3 > /dev/null; then
    PLAIN_PYTHON=$work/plain_python
    mkdir "$PLAIN_PYTHON"
    printf '#!/bin/sh\nexec "%s" -S "$@"\n' "$(python3 -c 'import sys; print(sys.executable)')" \
        > "$PLAIN_PYTHON/python3"
    chmod +x "$PLAIN_PYTHON/python3"
    PATH=$PLAIN_PYTHON:$PATH
    export PLAIN_PYTHON
fi
: > "$work/nothing"
passed=0
failed=0
skipped=0

# add_verdict VERDICT NAME: adds a test's line to the file of verdicts.
add_verdict() {
    [ -z "${VERDICTS:-}" ] || echo "$1 tests/programs/${0##*/}: ${2//$'\n'/ }" >> "$VERDICTS"
}

# pass NAME, fail NAME WHAT, skip NAME WANTS: counts a test that passed, one that failed by WHAT, and one that can't be
# made here, since it wants a tool, or whatever else WANTS says in several words.
pass() {
    passed=$((passed + 1))
    add_verdict passed "${1:-a test}"
}
fail() {
    failed=$((failed + 1))
    add_verdict failed "$1"
    echo "FAILED $1: $2"
}
skip() {
    skipped=$((skipped + 1))
    add_verdict skipped "$1"
    echo "SKIP $1: wants $2"
}

# verdict NAME WRONG: counts a test that passed if nothing is wrong.
verdict() {
    if [ -z "$2" ]; then pass "$1"; else fail "$1" "${2#; }"; fi
}

# differs STATUS OUTPUT-FILE GOT-STATUS: what is wrong with the status and the output of a run that left $work/out.
differs() {
    [ "$3" = "$1" ] || echo -n "; status $3, wanted $1"
    cmp -s "$work/out" "$2" || echo -n "; standard output differs"
}

# check NAME STATUS OUTPUT-FILE ERROR GOT-STATUS: compares a run that left $work/out and $work/err. ERROR is all of
# standard error, one line, or nothing.
check() {
    local wrong
    wrong=$(differs "$2" "$3" "$5")
    printf '%s' "${4:+$4$'\n'}" > "$work/wanted-err"
    cmp -s "$work/err" "$work/wanted-err" || wrong="$wrong; standard error is '$(head -c 600 "$work/err")', wanted '$4'"
    verdict "$1" "$wrong"
}

# check_usage NAME FIRST USAGE GOT-STATUS: compares a run whose command line is wrong. FIRST is the first line of
# standard error, USAGE its line of the usage, or nothing where it has none; nothing is on standard output.
check_usage() {
    local wrong
    wrong=$(differs 2 "$work/nothing" "$4")
    [ "$(head -n 1 "$work/err")" = "$2" ] || wrong="$wrong; the first line isn't '$2'"
    [ "$(grep '^Usage' "$work/err")" = "$3" ] || wrong="$wrong; the usage isn't '$3'"
    [ "$(tail -n 1 "$work/err")" = "For more information, try '--help'." ] || wrong="$wrong; another last line"
    verdict "$1" "${wrong:+$wrong: $(head -c 600 "$work/err")}"
}

# have TOOL NAME: whether a tool is there; the test is skipped where it isn't.
have() {
    command -v "$1" > /dev/null || { skip "$2" "$1"; return 1; }
}

# have_terminal NAME: whether this machine gives terminals to programs; the test is skipped where it doesn't.
have_terminal() {
    have python3 "$1" || return 1
    python3 -c 'import os; os.openpty()' 2> /dev/null || { skip "$1" "a terminal of /dev/pts"; return 1; }
}

# check_script NAME COMMAND..: runs a test of its own, whose status is 0 if it passed. One that can't be made here
# prints nothing but `wants TOOL`.
check_script() {
    local name=$1 said
    shift
    if said=$("$@" 2>&1); then
        if [[ "$said" == "wants "* ]]; then
            skip "$name" "${said#wants }"
        else
            pass "$name"
        fi
    else
        fail "$name" "$said"
    fi
}

# keep_objects: from now on the compilers for MIPS keep the object files of the kit's own sources, sdk/lib/*.c: those of
# the same command line are the same in each project.
keep_objects() {
    local tool real
    mkdir -p "$work/bin" "$work/kept"
    for tool in mips-linux-gnu-gcc clang; do
        real=$(command -v $tool) || continue
        cat > "$work/bin/$tool" << END
#!/bin/sh
for it; do :; done
case \$it in */sdk/lib/*.c) ;; *) exec $real "\$@" ;; esac
for it; do
    [ "\$before" != -o ] || made=\$it
    before=\$it
done
case \$made in */kit/*.o) ;; *) exec $real "\$@" ;; esac
kept=\$(printf '%s\n' $tool "\$@" | md5sum)
kept=$work/kept/\${kept%% *}
[ ! -d "\$kept" ] || exec cp "\$kept"/* "\${made%/*}"
$real "\$@" || exit
new=\$(mktemp -d "$work/kept/new.XXXXXX")
cp "\$made" "\${made%.o}.d" "\$new"
mv -T "\$new" "\$kept" 2> /dev/null || rm -r "\$new"
END
        chmod +x "$work/bin/$tool"
    done
    PATH=$work/bin:$PATH
}

# lay SCENE..: lays the files of scenes out whole, each in a folder of $laid (tests/programs/scene).
laid=$work/scenes
lay() {
    have python3 "the files of scenes" || { summary; exit; }
    tests/programs/scene --lay "$laid" "$board" "$@" || fail "the files of scenes" "they can't be laid out"
}

# count_in NAME COMMAND..: runs a test that counts what it has tried itself, and adds the verdicts to the file of
# verdicts.
count_in() {
    local name=$1 lines more
    shift
    lines=$("$@")
    more=$(tail -n 1 <<< "$lines")
    sed '$d' <<< "$lines"
    if [[ "$more" =~ $closing ]]; then
        passed=$((passed + BASH_REMATCH[1]))
        failed=$((failed + BASH_REMATCH[2]))
        skipped=$((skipped + BASH_REMATCH[3]))
    else
        fail "$name" "it ended without its closing line"
    fi
}

# What this system says of an error: its text depends on the C library, so it is taken from a run of `cat`. The number
# after it is Linux's.
is_missing="$(LC_ALL=C cat "$work/nosuch" 2>&1 | sed 's/.*: //') (os error 2)"
is_directory="$(LC_ALL=C cat / 2>&1 | sed 's/.*: //') (os error 21)"
is_full="$(echo x | LC_ALL=C cat 2>&1 > /dev/full | sed 's/.*: //') (os error 28)"

# The closing line says how many tests passed, failed and were skipped.
closing='^([0-9]+) passed, ([0-9]+) failed, ([0-9]+) skipped$'
summary() {
    echo "$passed passed, $failed failed, $skipped skipped"
    [ "$failed" -eq 0 ]
}
