#!/bin/bash
# The tests of coverage and profiles, `board trace --format lcov` and `--format callgrind`: tests/programs/cover.sh
# PROGRAM. Their counts beside those of `--instructions`; and the tools that read them, each skipped where it is
# missing.
. "$(dirname "$0")/check.sh"

# example NAME: makes $work/image of an example's source, and `files` what `board trace` reads of it.
example() {
    "$board" asm "examples/$1.s" "$work/image" 2> "$work/err" || fail "cover: $1" "$(cat "$work/err")"
    files=("$work/image" "examples/$1.cfg" "examples/$1.journal")
}

# info FORM NAME ARGUMENTS..: writes a trace of a form to $work/NAME.
info() {
    "$board" trace --format "$1" "${@:3}" < /dev/null > "$work/$2" 2> "$work/err" ||
        fail "cover: $2" "$(head -c 600 "$work/err")"
}

# says NAME PATTERN COMMAND..: a command succeeds, and a line of what it prints has the pattern.
says() {
    local name=$1 pattern=$2 wrong=
    shift 2
    "$@" > "$work/said" 2>&1 < /dev/null || wrong="; status $?"
    grep -qE -- "$pattern" "$work/said" || wrong="$wrong; no line has '$pattern'"
    verdict "cover: $name" "${wrong:+$wrong: $(head -c 900 "$work/said")}"
}

if have python3 "the counts of instructions"; then
    for name in hello/hello deadlock/deadlock lost_update/racy interrupt/interrupt fault/fault two_tasks/two_tasks; do
        example "$name"
        verdict "cover: the counts of $name" "$(tests/programs/cover_counts "$board" "${files[@]}" 2>&1)"
    done
    lay trace_runaway trace_exceptions
    for name in trace_runaway trace_exceptions; do
        files=("$laid/$name/image.elf" "$laid/$name/config.cfg" "$laid/$name/journal")
        verdict "cover: the counts of $name" "$(tests/programs/cover_counts "$board" "${files[@]}" 2>&1)"
    done
    example deadlock/deadlock
    verdict "cover: the counts of a part" "$(tests/programs/cover_counts "$board" "${files[@]}" 10 30 2>&1)"
fi
example deadlock/deadlock
info lcov one.info "${files[@]}"
info lcov other.info --to 20 "${files[@]}"
info callgrind one.callgrind "${files[@]}"
printf 'TN:\n' > "$work/empty"
info lcov none.info --to 0 "${files[@]}"
verdict "cover: nothing is executed" "$(cmp "$work/empty" "$work/none.info" 2>&1)"
if have lcov "lcov"; then
    says "lcov reads it" 'lines\.*: [0-9.]+%' lcov --rc lcov_branch_coverage=1 --summary "$work/one.info"
    says "lcov adds two" 'lines\.*: [0-9.]+%' lcov --rc lcov_branch_coverage=1 -a "$work/one.info" \
        -a "$work/other.info" -o "$work/both.info"
fi
if have genhtml "genhtml of code without a line table"; then
    says "genhtml of code without a line table" 'functions\.*: 100.0%' \
        genhtml --branch-coverage --ignore-errors source -o "$work/html" "$work/one.info"
fi
if have callgrind_annotate "callgrind_annotate"; then
    says "callgrind_annotate reads it" '^[0-9,]+ \(100\.0%\) +PROGRAM TOTALS' callgrind_annotate "$work/one.callgrind"
    says "callgrind_annotate, inclusive" 'cpu 1 task 1' callgrind_annotate --inclusive=yes --threshold=100 \
        "$work/one.callgrind"
fi

# A program in C, whose lines are those of its source.
if have mips-linux-gnu-gcc "the lines of C"; then
    make -s -C examples/c_program BUILD="$work/c" > "$work/said" 2>&1 || fail "cover: C" "$(cat "$work/said")"
    files=("$work/c/firmware.elf" "$work/c/firmware.cfg" examples/c_program/firmware.journal)
    info lcov c.info "${files[@]}"
    info callgrind c.callgrind "${files[@]}"
    verdict "cover: functions of C" "$(grep -q '^FNDA:[1-9][0-9]*,meter$' "$work/c.info" || grep FN "$work/c.info")"
    # Also of a line whose last instruction isn't executed: a positive number is its own absolute value.
    if have python3 "how often lines of C are executed"; then
        mkdir "$work/abs"
        sed 's/sum += litres\[i\];/&\n        asm volatile("abs %0, %0" : "+r"(sum));/' examples/c_program/firmware.c \
            > "$work/abs/counted.c"
        make -s -C examples/c_program BUILD="$work/abs" SOURCES="$work/abs/counted.c" > "$work/said" 2>&1 ||
            fail "cover: how often lines of C are executed" "$(cat "$work/said")"
        verdict "cover: how often lines of C are executed" "$(tests/programs/cover_lines "$board" counted.c \
            "$work/abs/firmware.elf" "$work/abs/firmware.cfg" examples/c_program/firmware.journal 2>&1)"
    fi
    cd examples/c_program || exit 2
    if have genhtml "genhtml"; then
        says "genhtml reads it" '^Overall coverage rate' genhtml --branch-coverage -o "$work/html" "$work/c.info"
    fi
    if have callgrind_annotate "callgrind_annotate with C"; then
        says "callgrind_annotate with C" 'firmware\.c:meter' callgrind_annotate --inclusive=yes --threshold=100 \
            "$work/c.callgrind"
    fi
fi
summary
