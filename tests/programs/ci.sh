#!/bin/bash
# The recipes of docs/CI.md for build servers: tests/programs/ci.sh PROGRAM. The shell lines of each are run in the
# folder of a project as sdk/new makes it, in which a copy of this clone stands as `board`; lines that get packages or
# the clone are left out. Then what `make ci` says of two programs, of which one has a mistake.
. "$(dirname "$0")/check.sh"
for tool in python3 make mips-linux-gnu-gcc; do
    have "$tool" "the recipes of docs/CI.md" || { summary; exit; }
done
keep_objects

# lines_of TITLE: the shell lines of the recipe in the section of this title.
lines_of() {
    awk -v title="## $1" '/^## / { inside = $0 == title } inside' docs/CI.md |
        awk '/^```/ { code = !code; next } code' |
        sed -nE 's/^ +- run: (.*)/\1/p; /^ +(after_)?script:$/,/^  [a-z]*:/{ s/^    - (.*)/\1/p }' |
        grep -v '^apt-get \|^git clone '
}

for server in "GitHub Actions" GitLab; do
    project=$work/${server%% *}
    sdk/new "$project" > "$work/nothing_said"
    printf 'SDK = /nowhere/sdk\ninclude $(SDK)/board.mk\n' > "$project/Makefile"
    mkdir "$project/board"
    cp -r Makefile dist examples sdk "$project/board"
    lines_of "$server" > "$work/lines"
    wrong=
    [ "$(grep -c '^make ci ' "$work/lines")" = 1 ] && [ "$(wc -l < "$work/lines")" = 4 ] ||
        wrong="; it has the lines $(cat "$work/lines")"
    while IFS= read -r line; do
        (cd "$project" && sh -c "$line") < "$work/nothing" > "$work/said" 2>&1 ||
            wrong="$wrong; '$line' fails: $(tail -n 5 "$work/said")"
    done < "$work/lines"
    for suite in firmware "firmware races" "firmware stacks"; do
        grep -q "<testsuite name=\"$suite\" tests=\"1\" failures=\"0\"" "$project/build/ci/tests.xml" ||
            wrong="$wrong; no report of $suite"
    done
    grep -q '^SF:firmware.c$' "$project/build/ci/coverage.info" || wrong="$wrong; no coverage"
    grep -q '^<svg ' "$project/run.svg" || wrong="$wrong; no picture"
    verdict "the recipe for $server" "$wrong"

    # A project whose test fails: so does the line, and the report says it.
    echo 34 > "$project/firmware.console"
    line=$(grep '^make ci ' "$work/lines")
    wrong=
    (cd "$project" && sh -c "$line") < "$work/nothing" > "$work/said" 2>&1 && wrong="; '$line' doesn't fail"
    grep -q '<testsuite name="firmware" tests="1" failures="1"' "$project/build/ci/tests.xml" ||
        wrong="$wrong; no report"
    verdict "the recipe for $server, where a test fails" "$wrong"
done

# A project of two programs, of which each has two journals.
sdk=$PWD/sdk
several=$work/several
mkdir "$several"
cp sdk/project/ids.h "$several"
for it in one two; do
    cp sdk/project/firmware.cfg "$several/$it.cfg"
    sed "s/Hello/I am $it/" sdk/project/firmware.c > "$several/$it.c"
    for test in "$it" "$it.late"; do
        cp sdk/project/firmware.journal "$several/$test.journal"
        sed "s/Hello/I am $it/" sdk/project/firmware.console > "$several/$test.console"
    done
done
printf 'SDK = %s\nPROGRAMS = one two\ninclude $(SDK)/board.mk\n' "$sdk" > "$several/Makefile"

# project ARGUMENT..: make in its folder.
project() {
    make -s -C "$several" BOARD="$board" "$@" < "$work/nothing" > "$work/out" 2> "$work/err"
}

# judged NAME STATUS LINES ARGUMENT..: what `make ci` prints, and its status.
judged() {
    local got wrong
    project ci "${@:4}"
    got=$?
    wrong=$(diff <(echo "$3") "$work/out")
    [ $got = "$2" ] || wrong="$wrong; status $got: $(cat "$work/err")"
    verdict "make ci, $1" "$wrong"
}

# passed PROGRAM: its lines if all is right.
passed() {
    for test in "$1" "$1.late"; do
        printf 'ok: %s.journal%s\n' "$test" '' "$test" ', races' "$test" ', stacks'
    done
}

# counted FILE INFO: how often each line of a file was executed, as lcov's form has it.
counted() {
    sed -n "/^SF:$1\$/,/^end_of_record/{ s/^DA://p }" "$2"
}

part="coverage: 5 of 7 lines, 2 of 2 functions, 5 of 8 sides of branches"
whole="coverage: 10 of 14 lines, 4 of 4 functions, 10 of 16 sides of branches"
judged "of two programs" 0 "$(passed one; echo "$part"; passed two; echo "$whole")"
verdict "make ci, its report" "$(python3 - "$several/build/ci/tests.xml" 2>&1 << 'END'
import sys
from xml.etree import ElementTree
suites = [(it.get("name"), [case.get("name") for case in it]) for it in ElementTree.parse(sys.argv[1]).getroot()]
if suites != [(f"{it}{what}", [it, f"{it}.late"]) for it in ("one", "two") for what in ("", " races", " stacks")]:
    print(suites)
END
)"
project cover PROGRAM=one JOURNAL=one.journal
counted one.c "$several/build/one.info" > "$work/once"
project cover PROGRAM=one
verdict "make cover, of all journals" "$(
    grep -q '^7,3$' "$work/once" || cat "$work/once"
    awk -F , '{ print $1 "," 2 * $2 }' "$work/once" | diff - <(counted one.c "$several/build/one.info"))"
verdict "make ci, what all programs execute" "$(
    diff <(counted one.c "$several/build/one.info") <(counted one.c "$several/build/ci/coverage.info")
    diff <(printf 'SF:one.c\nSF:two.c\n') <(grep '^SF:' "$several/build/ci/coverage.info"))"
if have genhtml "make ci, pages of its coverage"; then
    verdict "make ci, pages of its coverage" "$(cd "$several" &&
        genhtml --branch-coverage -o build/coverage build/ci/coverage.info > "$work/out" 2>&1 &&
        grep -q '(10 of 14 lines)' "$work/out" || cat "$work/out")"
fi
judged "too few lines" 2 "$(passed one; echo "$part"
    echo "FAILED: coverage: 5 of 7 lines are fewer than COVERAGE=72 of a hundred"
    passed two; echo "$whole"
    echo "FAILED: coverage: 10 of 14 lines are fewer than COVERAGE=72 of a hundred")" COVERAGE=72
judged "enough lines" 0 "$(passed one; echo "$part"; passed two; echo "$whole")" COVERAGE=71
project ci COVERAGE=most
verdict "make ci, COVERAGE" "$(grep -qx "COVERAGE is a number from 0 to 100, and not 'most'" "$work/err" ||
    cat "$work/err")"

# failed NAME PATTERN SUITE EDIT: `make ci` with a mistake in one.c that sed's EDIT makes, of which a line has PATTERN;
# the suite has two failures, and what comes after it is judged all the same.
failed() {
    local got
    cp "$several/one.c" "$work/one.c"
    sed -i "$4" "$several/one.c"
    project ci CFLAGS=-w
    got=$?
    verdict "make ci, $1" "$(
        [ $got = 2 ] || echo "; status $got"
        grep -qE "$2" "$work/out" && grep -q '^ok: two.late.journal, stacks$' "$work/out" || cat "$work/out" "$work/err"
        grep -q "<testsuite name=\"$3\" tests=\"2\" failures=\"2\"" "$several/build/ci/tests.xml" || echo "; no $3")"
    cp "$work/one.c" "$several/one.c"
}
TIME=%e DATA=/data COVERAGE=100 REPORTS=/reports judged "with other meanings of its words in the environment" 0 \
    "$(passed one; echo "$part"; passed two; echo "$whole")"
failed "a refused call" '^  chg_pri\(99, 1\) = E_NOEXS at event .*: nobody looks at the answer$' one \
    's/^    }$/    }\n    chg_pri(99, 1);/'
failed "a race" '^  race at shared .*handler 3 \(BUTTON\) at press.*one\.c:[0-9]+\), ' "one races" \
    's/^void press/volatile INT shared;\n&/; s/^    isig_sem.*/&\n    shared++;/; s/ = wai_sem(PRESSED);/& shared++;/'
failed "a store below a stack" '^  stack overflow: task 1 \(GREETER\), event ' "one stacks" \
    's/printf("I am/char text[1100]; memset(text, 0, sizeof text); printf("%s", text); &/'
failed "an assertion" "^one\.c:16: this doesn't hold: i < 2 \(task 1 \(GREETER\), processor 1\)\$" one \
    's/answer == E_OK/i < 2/'
summary
