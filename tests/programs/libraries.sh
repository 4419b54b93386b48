#!/bin/bash
# The tests of libraries by themselves, by the programs of other crates that `rt ci` leaves: each growth that is refused
# to the readers of configurations, journals and object files, to boot, build and load, to journals, debuggers, stations
# and races, and to pictures of timelines; how often a station asks for memory; what these pictures hold; and object
# files of GNU ld. tests/programs/libraries.sh PROGRAM (which it doesn't run).
. "$(dirname "$0")/check.sh"
. tests/programs/growths.sh
inputs=crates/rows_input/out/rows_input
boards=crates/rows_board/out/rows_board
threads=crates/rows_thread/out/rows_thread
elf=crates/bench_elf/out/bench_elf

# built PROGRAM: whether `rt ci` has left it; its tests are skipped where it hasn't.
built() {
    [ -x "$1" ] || { skip "the tests by ${1##*/}" "$1, which rt ci leaves"; return 1; }
}

# scene PROGRAM NAME: leaves the scene of that name, of the rows that the program reads, in $work/in.
scene() {
    awk -v name="= $2" '/^= / { is_in = $0 == name } is_in' "${1%/out/*}/stdin" > "$work/in"
    [ -s "$work/in" ] || fail "rows of ${1##*/}" "no scene is named: $2"
}

# refuse_each_in NAME PROGRAM: the same as refuse_each, for the rows in $work/in.
refuse_each_in() {
    "$2" < "$work/in" > "$work/wanted"
    refuse_each "$1" 1 "*[Mm]emory*" "$2"
}

# A scene at a time: a growth that is refused ends the program.
if built "$inputs"; then
    scene "$inputs" "configurations: every statement"
    refuse_each_in "configuration texts" "$inputs"
    scene "$inputs" "journals: neighbours"
    refuse_each_in "journal texts" "$inputs"
    scene "$inputs" "build and load"
    refuse_each_in "build and load" "$inputs"
    # Pictures of timelines, which are also read back.
    for form in svg json; do
        scene "$inputs" "timeline"
        sed -i "s/^svg\$/$form/" "$work/in"
        refuse_each_in "timelines as $form" "$inputs"
    done
    if have python3 "timelines read back"; then
        check_script "timelines read back" tests/programs/timelines "$inputs"
    fi
fi
if built "$elf"; then
    : > "$work/in"
    "$elf" crates/bench_elf/data/firmware.elf > "$work/wanted"
    refuse_each "an object file" 1 "*[Mm]emory*" "$elf" crates/bench_elf/data/firmware.elf
fi

# A board with every kind of object, handlers and eight processors, its copies and snapshots; a journal; moves of a
# debugger. What was refused of journals and debuggers is done once more, so the output is that without refusals.
if built "$boards"; then
    scene "$boards" "stacks: rounded up to 16 from the end of RAM, or as placed and rounded down to 8"
    refuse_each_in "boot" "$boards"
    scene "$boards" "a debugger moves over events of every kind"
    refuse_each_in "journals and debuggers" "$boards"
fi
if built "$threads"; then
    cp crates/rows_thread/stdin "$work/in"
    refuse_each_in "stations and races" "$threads"
fi

# The events of a station's board take no memory: some by steps, scripts and leases, or 100,000 and more, ask for it
# just as often.
if [ -x "$threads" ] && [ "$can_refuse" = yes ]; then
    echo "station 1" > "$work/in"
    few=$(counts "$threads")
    echo "station 900" > "$work/in"
    many=$(counts "$threads")
    wrong=
    steps=$(sed -n 's/^station: \([0-9]*\) steps.*/\1/p' "$work/out")
    [ "${steps:-0}" -gt 100000 ] || wrong="; another output: $(cat "$work/out")"
    [ "$few" -gt 10 ] && [ "$few" = "$many" ] || wrong="$wrong; $few growths, and $many"
    verdict "a station's events take no memory" "$wrong"
fi

# Object files of GNU as and ld, and the line tables of compilers.
check_script "object files of GNU ld" tests/programs/elf_binutils.sh
if built crates/rows_lines/out/rows_lines; then
    check_script "line tables beside addr2line" tests/programs/lines_dwarf
fi

summary
