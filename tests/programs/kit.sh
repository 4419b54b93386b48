#!/bin/bash
# The tests of the kit for C, sdk/: tests/programs/kit.sh PROGRAM. Its headers beside the documents; the examples in C
# and the programs of tests/data/kit, as Clang makes them and as GCC for MIPS does, at levels of optimization; and what
# a project that sdk/new has made says of mistakes. Each is skipped, which a line says, where its tools are missing.
. "$(dirname "$0")/check.sh"
sdk=$PWD/sdk

# says NAME STATUS TEXT COMMAND..: runs a command; TEXT is a line of what it prints, or * for anything; a TEXT with
# [0-9] is a pattern of one.
says() {
    local name=$1 status=$2 text=$3 got wrong=
    shift 3
    "$@" < /dev/null > "$work/said" 2>&1
    got=$?
    [ "$got" = "$status" ] || wrong="; status $got, wanted $status"
    local form=-F
    [[ "$text" != *'[0-9'* ]] || form=-E
    [ "$text" = '*' ] || grep -qx "$form" -- "$text" "$work/said" || wrong="$wrong; no line '$text'"
    verdict "kit: $name" "${wrong:+$wrong: $(head -c 1500 "$work/said")}"
}

have python3 "the kit for C" || { summary; exit; }
check_script "the kit's headers beside the documents" tests/programs/kit_doc

# What needs no compiler: wrong command lines, and the marks of lines that the C preprocessor leaves.
says "sdk/new without a folder" 2 "use: sdk/new FOLDER" sdk/new
says "sdk/new --version" 0 "board's kit for C 1.0" sdk/new --version
says "sdk/new with an option" 2 "use: sdk/new FOLDER" sdk/new --help
says "sdk/new where something is" 1 "sdk/new: $work is there already" sdk/new "$work"
says "sdk/libc with a wrong word" 2 "use: sdk/libc [big|little]" sdk/libc middle
says "sdk/debian without a package" 2 "use: sdk/debian PACKAGE FOLDER" sdk/debian
says "sdk/test without a program" 2 \
    "use: sdk/test [--accept] [--strict] [--expect WORDS] [--junit FILE] [--jobs N] BOARD IMAGE CONFIG NAME.journal.." \
    sdk/test
says "sdk/test with no jobs" 2 "JOBS is a number from 1 to 1024, and not '0'" sdk/test --jobs 0 "$board" image config
says "sdk/test without a journal" 1 "FAILED: there is no journal, a file NAME.journal" sdk/test "$board" image config
says "sdk/ordered without a program" 2 "use: sdk/ordered IMAGE JOURNAL" sdk/ordered
says "sdk/gdb without a program" 2 "use: sdk/gdb BOARD IMAGE CONFIG JOURNAL [OPTION OF GDB..]" sdk/gdb "$board"
says "sdk/gdb without GDB" 2 \
    "there is no nosuch: apt-get install gdb-multiarch, or GDB names another GDB for MIPS; make debug needs none" \
    env GDB=nosuch sdk/gdb "$board" image config journal
# What an instruction does with an answer in $v0: it reads it, writes over it, or neither.
verdict "kit: who looks at an answer" "$(PYTHONPATH=sdk/lib python3 -B - 2>&1 << 'END'
import strict
READ = ("addu $a0, $v0, $zero; $a0 = 00000001", "beq $v0, $zero, 0x80000014", "bltz $v0, 0x80000014", "sw $v0, 4($sp)",
        "sw $t0, 0($v0)", "addu $v0, $v0, $t0", "lw $v0, 0($v0); $v0 = 00000000; 80000000: 00000000", "teq $v0, $zero, 7",
        "movz $v0, $t0, $t1", "mult $t0, $v0", "mthi $v0", "jr $v0", "slti $v0, $v0, 0", "sc $v0, 0($t0)",
        "div $v0, $t0", "jalr $ra, $v0", "lwl $v0, 0($t0)")
WRITTEN = ("addiu $v0, $zero, 3; $v0 = 00000003", "lui $v0, 0x8000", "lw $v0, 0($t0)", "mflo $v0", "sig_sem(1) = E_OK",
           "ext_tsk(), task 1 dormant", "ret_int()", "clz $v0, $t0", "service 106 = E_RSFN", "ll $v0, 0($t0)")
NEITHER = ("nop", "addiu $v1, $zero, 3", "jr $ra", "beq $t0, $t1, 0x80000014", "sw $v1, 0($a0)", "j 0x80000000", "mfhi $t0",
           "jal 0x80000000; $ra = 80000008", "sync")
for texts, wanted in ((READ, True), (WRITTEN, False), (NEITHER, None)):
    for it in texts:
        if strict.looks(it) is not wanted:
            print(f"{it}: {strict.looks(it)}")
END
)"
printf '\177ELF\1\1\1' > "$work/little"
printf '\177ELF\1\2\1' > "$work/big"
printf 'board-journal 1\nS 1 2\n' > "$work/journal"
verdict "kit: a journal for a little-endian program" \
    "$(sdk/ordered "$work/little" "$work/journal" | diff <(printf 'board-journal 2 little\nS 1 2\n') -)"
verdict "kit: a journal for a big-endian program" "$(sdk/ordered "$work/big" "$work/journal" | diff "$work/journal" -)"
says "sdk/hunt without a program" 2 \
    "use: sdk/hunt BOARD IMAGE CONFIG JOURNAL OUT [--tries N] [--time SECONDS] [--seed N] [--expect WORDS] [--move WORDS] [--jobs N]" \
    sdk/hunt

# configured: what configure.awk makes of the preprocessed configuration on standard input, with values for expressions.
configured() {
    cat > "$work/marked"
    awk -v main=a.cfg -v expressions="$work/expressions" -f sdk/lib/configure.awk "$work/marked"
    grep -o '(.*);' "$work/expressions" | tail -n +2 > "$work/asked"
    awk -v main=a.cfg -v values="$work/values" -v entries="$work/entries" -f sdk/lib/configure.awk "$work/marked"
}
printf '%s\n' '@@1 1024' '@@2 -1' > "$work/values"
printf '%s\n' '# 0 "a.cfg"' '# 1 "<command-line>"' '#define' '# 1 "a.cfg"' '# 1 "ids.h" 1' 'CRE_SEM(2, {TA_NULL});' \
    '# 2 "a.cfg" 2' '' 'BOARD(1, 0x10000);' '# 7 "a.cfg"' 'CLASS(TCL_1) { CRE_TSK(4, {TA_HLNG | TA_ACT, -1,' \
    '    go, 1, 2 * (256 +' '    256), NULL}); } DEF_INH(3, {TA_NULL,press});' \
    'CRE_MPF(5, {TA_TFIFO | TA_TPRI, 2, 12, NULL});' 'CRE_CYC(0x1F, {TA_STA, 0, sample, 5, 0});' \
    'CRE_ALM(2, {TA_HLNG, 7, give_up});' > "$work/in"
printf '%s\n' '@@1 -1' '@@2 1024' > "$work/values"
printf '%s\n' ' #define CRE_SEM(2, {TA_NULL});' '' 'BOARD(1, 0x10000);' '' '' '' \
    'CLASS(TCL_1) { CRE_TSK(4, {TA_HLNG | TA_ACT, 4294967295,' '    task_4, 1,' \
    ' 1024, NULL}); } DEF_INH(3, {TA_NULL,handler_3});' 'CRE_MPF(5, {TA_TFIFO | TA_TPRI, 2, 12, NULL});' \
    'CRE_CYC(0x1F, {TA_STA, 0, cyclic_0x1F, 5, 0});' 'CRE_ALM(2, {TA_HLNG, 7, alarm_2});' > "$work/wanted"
verdict "kit: configure.awk" "$(configured < "$work/in" | diff "$work/wanted" -)"
printf '%s\n' 'entry_board 0x10000' 'entry_task 4, go, 1024, NULL' 'entry_handler handler_3, 3, press' 'entry_pool 2, 12, NULL' \
    'entry_handler cyclic_0x1F, 92, sample' 'entry_handler alarm_2, 35, give_up' > "$work/wanted"
verdict "kit: configure.awk for start.S" "$(diff "$work/wanted" "$work/entries")"

have make "programs in C" || { summary; exit; }
keep_objects

# project FOLDER ARGUMENT..: make in the folder of a project.
project() {
    local folder=$1
    shift
    make -s -C "$folder" SDK="$sdk" BOARD="$board" BUILD="$work/build" "$@"
}

# A journal in which two processors take turns of a few steps, and each gets interrupts.
cp -r tests/data/kit "$work/kit"
awk 'BEGIN {
    print "board-journal 1"
    for (i = 0; i < 20; i++) {
        print "R 3 1\nR 4 1"
        for (j = 0; j < 150; j++) print "S 1 " 1 + (7 * i + j) % 3 "\nS 2 " 1 + i * j % 4
    }
    print "S 2 50000\nS 1 50000"
}' > "$work/kit/shared/firmware.journal"
projects=(examples/c_program examples/c_protocol examples/c_two_processors examples/c_messages examples/c_watchdog
    "$work"/kit/*)
what="programs in C, as Clang makes them"
if ! have clang "$what" || ! have ld.lld "$what"; then
    :
elif ! clang --target=mips-linux-gnu -x c -c -o "$work/object" /dev/null 2> /dev/null; then
    skip "$what" "a Clang with MIPS"
else
    for folder in "${projects[@]}"; do
        levels="-O0 -Os"
        [[ "$folder" != examples/* ]] || levels=-Os
        for level in $levels; do
            says "$(basename "$folder"), Clang, $level" 0 "ok: firmware.journal" \
                project "$folder" test CC="clang --target=mips-linux-gnu" LD=ld.lld OPTIMIZE=$level
        done
    done
fi

if ! have mips-linux-gnu-gcc "programs in C, as GCC for MIPS makes them"; then
    # (docs/dev/HOSTILE.md names it)
    have mips-linux-gnu-gcc "kit: a strict test whose output nobody reads"
    summary
    exit
fi
for folder in "${projects[@]}"; do
    name=$(basename "$folder")
    levels="-O0 -O1 -O2 -Os"
    # (the examples have nothing that those of tests/data/kit haven't)
    [[ "$folder" != examples/* ]] || levels="-O0 -O2"
    for level in $levels; do
        says "$name, $level" 0 "ok: firmware.journal" project "$folder" test OPTIMIZE=$level
    done
    says "$name, little-endian, -O0, with STACK_CHECK" 0 "ok: firmware.journal" \
        project "$folder" test OPTIMIZE=-O0 ORDER=little STACK_CHECK=1
    says "$name, little-endian, -O2" 0 "ok: firmware.journal" project "$folder" test OPTIMIZE=-O2 ORDER=little
done

says "another byte order" 2 "*" project examples/c_program ORDER=middle

# The benchmark: its kept object file is what GCC 12 makes of its source, and its checksums are those of this machine.
says "the benchmark" 0 "ok: bench.journal" project tests/data/bench test
if [ "$(mips-linux-gnu-gcc -dumpversion)" = 12 ]; then
    mips-linux-gnu-strip -g -o "$work/bench.elf" "$work/build/bench.elf"
    verdict "kit: the benchmark that is kept" "$(cmp "$work/bench.elf" tests/data/bench/bench.elf ||
        echo "make -C tests/data/bench keep")"
else
    skip "kit: the benchmark that is kept" "GCC 12 for MIPS"
fi
# (tests/programs/speed_qemu says why.)
verdict "kit: the benchmark's data on pages without code" "$(mips-linux-gnu-nm tests/data/bench/bench.elf | awk '
    { at[$3] = $1; if (tolower($2) ~ /[tw]/ && $1 > last) last = $1 }
    END { if (at["works"] !~ /000$/ || last >= at["works"]) print "code up to " last ", data from " at["works"] }')"
tests/data/bench/program.py 1 3 > "$work/one.cfg"
printf 'board-journal 1\nS 1 200000\n' > "$work/one.journal"
"$board" run tests/data/bench/bench.elf "$work/one.cfg" "$work/one.journal" 2>&1 | grep '^3 rounds' > "$work/wanted"
if have cc "kit: the benchmark on this machine"; then
    {
        echo '#include <stdio.h>'
        echo '#include <string.h>'
        sed -n '/^typedef.*;$/p' sdk/include/itron.h
        sed -n '/^#define BYTES/,/^void bench/p' tests/data/bench/bench.c | sed '$d'
        echo 'int main(void) { printf("3 rounds: %08x\n", rounds_of(works, 3)); }'
    } > "$work/bench.c"
    cc -w -o "$work/bench" "$work/bench.c" && "$work/bench" > "$work/out"
    verdict "kit: the benchmark on this machine" "$(diff "$work/wanted" "$work/out")"
fi

# What happens in a run: lines with the places of C, races, a page, coverage.
says "make trace" 0 " *[0-9]+ [12] +task .*; firmware[.]c:[0-9]+" \
    project examples/c_two_processors trace TRACEFLAGS="--instructions --to 200"
says "make races of a race" 2 \
    "race at sum .*: event [0-9]+, task 1 \\(FIRST\\) at add.*firmware.c:11\\), stores; event [0-9]+, task 2 .*, loads" \
    project "$work/kit/adders" races CFLAGS=-DRACE
says "make races of a right program" 0 "races: 0 words" project "$work/kit/adders" races
says "a strict test of a race" 2 "  race at sum .*: event [0-9]+, task 1 .*, stores; event [0-9]+, task 2 .*, loads" \
    project "$work/kit/adders" test CFLAGS=-DRACE STRICT=1
for it in examples/c_two_processors "$work/kit/interrupted"; do
    says "a strict test of a right program, $(basename "$it")" 0 "ok: firmware.journal" project "$it" test STRICT=1
done
for level in -O0 -O2; do
    says "make races, $level" 0 "races: 0 words" project examples/c_two_processors races OPTIMIZE=$level
done
says "make page" 0 "$work/build/firmware.html" project examples/c_two_processors page TRACEFLAGS="--to 2000"
says "make cover" 0 "$work/build/firmware.info" project examples/c_two_processors cover

# Other orders: a right program shows the same, and one with a race doesn't.
shared=$work/kit/shared
interrupted=$work/kit/interrupted
for level in -O0 -O2; do
    says "orders, $level" 0 "ok: 10 orders, from seed 1 on, with the console of firmware.journal" \
        project "$shared" hunt OPTIMIZE=$level TRIES=10
    says "orders of a race, $level" 2 "-added 40, swapped 40, locked 40, taken 1" \
        project "$shared" hunt OPTIMIZE=$level CFLAGS=-DRACE TRIES=100
    verdict "kit: where a race was found" "$(grep -qE '^[0-9a-f]{8} is adder firmware\.c:[0-9]+$' "$work/said" ||
        cat "$work/said")"
done
# All schedules: one under which the test fails, a part of it that fails too, and none of the right program.
adders=$work/kit/adders
says "a schedule of a race" 2 "the schedule is kept as $work/build/explore.journal" \
    project "$adders" explore CFLAGS=-DRACE
says "a schedule that is made shorter" 0 "the schedule is kept as $work/build/shrunk.journal" \
    project "$adders" shrink CFLAGS=-DRACE
says "all schedules" 0 \
    'none of the schedules fails: at most 100000 events, 2 preemptions, 0 ticks and 0 raises' \
    project "$adders" explore PREEMPTIONS=2
says "all schedules, by three threads" 0 \
    'none of the schedules fails: at most 100000 events, 2 preemptions, 0 ticks and 0 raises' \
    project "$adders" explore PREEMPTIONS=2 THREADS=3
says "all schedules, without bounds" 0 \
    "none fails, however many events and preemptions it has: at most 0 ticks and 0 raises" \
    project "$adders" explore PLACES=1000000
says "a function that is called" 2 'fails after [0-9]+ events: processor [12] is at add.*' \
    project "$adders" explore LOOK="--reach add"
# Those of examples/explore/c pass their tests with their mistakes, too, and a search finds these. (The barriers of four
# tasks take too long here to be searched as they are.)
none='none fails, however many events and preemptions it has: at most 0 ticks and [0-9] raises?.*'
says "the programs for searches" 0 "ok: spin_barrier.journal" project examples/explore/c test
for it in queue deque ring; do
    says "all schedules of a $it" 0 "$none" project examples/explore/c explore PROGRAM=$it PLACES=1000000
done
says "the programs for searches, with mistakes" 0 "ok: spin_barrier.journal" \
    project examples/explore/c test CFLAGS=-DWRONG
for it in queue deque ring barrier; do
    says "a mistake of a $it" 2 "the schedule is kept as $work/build/explore.journal" \
        project examples/explore/c explore PROGRAM=$it CFLAGS=-DWRONG
done
says "all schedules of a barrier of three" 0 "$none" \
    project examples/explore/c explore PROGRAMS="barrier spin_barrier" CFLAGS=-DTASKS=3 PLACES=1000000
says "sdk/explore without a program" 2 \
    "use: sdk/explore [--shrink] BOARD IMAGE CONFIG NAME.journal [FOUND] OUT [OPTION..]" sdk/explore
# steps JOURNAL: its other events, and how many steps each processor has before each of them.
steps() {
    awk '
        $1 == "S" { sum[$2] += $3; next }
        { print sum[1] + 0, sum[2] + 0, $0; sum[1] = sum[2] = 0 }
        END { print sum[1] + 0, sum[2] + 0 }
    ' "$1"
}
order=$work/build/hunt.journal
project "$shared" hunt CFLAGS=-DRACE TRIES=100 MOVE=none > "$work/said" 2>&1
verdict "kit: an order has the same steps" "$(diff <(steps "$shared/firmware.journal") <(steps "$order"))"
verdict "kit: an order is another one" "$(cmp -s "$shared/firmware.journal" "$order" && echo "it is the same")"
verdict "kit: an order is made shorter" "$([ "$(wc -l < "$order")" -lt 500 ] || wc -l "$order")"
says "orders of two processors, little-endian" 0 \
    "ok: 5 orders, from seed 7 on, with the console of firmware.journal" \
    project examples/c_two_processors hunt TRIES=5 SEED=7 ORDER=little
says "orders of two processors" 0 "ok: 5 orders, from seed 7 on, with the console of firmware.journal" \
    project examples/c_two_processors hunt TRIES=5 SEED=7

# Turns fit what the program does: of each size in some orders, however long it is, and never too many.
cat > "$work/turns" << 'END'
from importlib.machinery import SourceFileLoader
from importlib.util import module_from_spec, spec_from_loader

loader = SourceFileLoader("hunt", "sdk/hunt")
hunt = module_from_spec(spec_from_loader("hunt", loader))
loader.exec_module(hunt)
for steps in (2000, 100000, 1000000):
    runs = [["S", 1, steps], ["S", 2, steps], ["T", 1], ["S", 1, 9000000]]
    longest = []
    for seed in range(2, 22, 2):
        found = hunt.Order(runs, [], seed, set(), (2 * steps, 1)).found
        if sum(it[2] for it in found if it[0] == "S") != 2 * steps + 9000000 or len(found) > 400000:
            print(f"{steps} steps: {len(found)} turns, or other steps")
        # (Who is left alone in the end goes on for all that is left.)
        longest.append(max(it[2] for it in found[:10 + len(found) // 4]))
    if min(longest) * 8 > max(longest) or max(longest) > steps:
        print(f"{steps} steps: turns of {min(longest)} to {max(longest)}")
END
verdict "kit: turns fit the program" "$(python3 "$work/turns" 2>&1)"

# On one processor lines are raised earlier: between which instructions, that makes the orders. Without that there is
# one.
for level in -O0 -O2; do
    says "orders of interrupts, $level" 0 "*" project "$interrupted" hunt OPTIMIZE=$level TRIES=30
    says "a race with a handler, $level" 2 "\\+3[0-9]" project "$interrupted" hunt OPTIMIZE=$level CFLAGS=-DRACE
done
verdict "kit: the order of a race with a handler" "$(
    grep -q '^[123] of its ticks and raised lines come earlier than in firmware.journal (MOVE=none keeps them there)$' \
        "$work/said" || cat "$work/said")"
verdict "kit: all lines are raised in it" \
    "$([ "$(grep -c '^R 3 1$' "$order")" = 3 ] || cat "$order")"
says "the only order" 0 "ok: 1 order, from seed 1 on, with the console of firmware.journal" \
    project "$interrupted" hunt CFLAGS=-DRACE MOVE=none
says "the only order, in words" 0 \
    "there is one order alone: only one processor takes steps, and no line is raised after some of them" \
    project "$interrupted" hunt MOVE=none TRIES=3

# What is expected of an order.
printf '#!/bin/sh\ngrep -q "^33$" "$1" && grep -q "^off 1$" "$2" || { echo "not 33"; exit 3; }\n' > "$interrupted/check"
chmod +x "$interrupted/check"
says "orders by a check of one's own" 2 "seed [0-9]+: ./check ends with status 3: not 33; the order is kept as .*" \
    project "$interrupted" hunt CFLAGS=-DRACE EXPECT=./check
says "orders by other words" 0 \
    "ok: [0-9]+ orders, from seed 1 on, as expected \\(exception refused deadlock off lines\\)" \
    project "$interrupted" hunt EXPECT="exception refused deadlock off lines" TRIES=20
says "a test by other words" 0 "ok: firmware.journal" \
    project "$interrupted" test EXPECT="exception refused deadlock off races stacks ./check"
printf '#!/bin/sh\necho no such thing; exit 3\n' > "$interrupted/check"
says "a test by a check of one's own" 2 "  ./check ends with status 3: no such thing" \
    project "$interrupted" test EXPECT="lines ./check"
sed 's/printf/if (pulses != 33) chg_pri(99, 1);&/' "$interrupted/firmware.c" > "$work/refused.c"
says "orders by refused calls" 2 \
    "seed [0-9]+: chg_pri = E_NOEXS, which firmware.journal hasn't; the order is kept as .*" \
    project "$interrupted" hunt CFLAGS="-DRACE -w" EXPECT=refused SOURCES="$work/refused.c"
sed 's/printf/if (pulses != 33) slp_tsk();&/' "$interrupted/firmware.c" > "$work/deadlock.c"
says "orders by deadlocks" 2 "seed [0-9]+: a deadlock, which firmware.journal hasn't; the order is kept as .*" \
    project "$interrupted" hunt CFLAGS="-DRACE -w" EXPECT=deadlock SOURCES="$work/deadlock.c"
# Two tasks that take two semaphores, each the other's first, while a third one runs on.
cp -r "$interrupted" "$work/circle"
cat > "$work/circle/firmware.c" << 'END'
#include "board.h"
#include "ids.h"

void pulse(INHNO line)
{
    (void)line;
}

void watch(VP_INT unused)
{
    for (volatile UINT turns = 0;; turns++)
        (void)unused;
}

void take(VP_INT first)
{
    wai_sem(first);
    wai_sem(LEFT + RIGHT - first);
    sig_sem(LEFT + RIGHT - first);
    sig_sem(first);
}
END
printf '%s\n' '#include "ids.h"' 'BOARD(2, 0x10000);' \
    'CRE_SEM(LEFT, {TA_TFIFO, 1, 1}); CRE_SEM(RIGHT, {TA_TFIFO, 1, 1});' \
    'CRE_TSK(FIRST, {TA_ACT, LEFT, take, 1, 512, NULL});' 'CRE_TSK(WATCHER, {TA_ACT, 0, watch, 9, 512, NULL});' \
    'CLASS(TCL_2) { CRE_TSK(SECOND, {TA_ACT, RIGHT, take, 1, 512, NULL}); }' 'DEF_INH(3, {TA_NULL, pulse});' \
    > "$work/circle/firmware.cfg"
printf '#define FIRST 1\n#define SECOND 2\n#define WATCHER (0x3)\n#define LEFT 1\n#define RIGHT (LEFT + 1)\n' \
    > "$work/circle/ids.h"
printf 'board-journal 1\nS 1 300\nS 2 300\n' > "$work/circle/firmware.journal"
says "orders by a deadlock of some tasks" 2 \
    "seed [0-9]+: a circular wait, which firmware.journal hasn't; the order is kept as .*" \
    project "$work/circle" hunt EXPECT=deadlock
verdict "kit: the names in a deadlock of some tasks" "$(
    second='task 2 (SECOND) waits for semaphore 1 (LEFT), which task 1 (FIRST) took at event [0-9]*'
    grep -q "^circular wait: task 1 (FIRST) waits for semaphore 2 (RIGHT), which task 2 (SECOND) took .*; $second\$" \
        "$work/said" &&
        grep -q '^cpu 1 runs task 3 (WATCHER), last step at event [0-9]*$' "$work/said" || cat "$work/said")"
says "orders by the end" 2 "seed [0-9]+: the board isn't off in the end; the order is kept as .*" \
    project "$interrupted" hunt CFLAGS="-DRACE -w" EXPECT=off SOURCES="$work/deadlock.c"
sed 's/printf/if (pulses != 33) *(volatile INT *)1 = 1;&/' "$interrupted/firmware.c" > "$work/exception.c"
says "orders by exceptions" 2 "seed [0-9]+: task 1 \\(COUNT\\) at count\+0x[0-9a-f]+ : DBE: store to 00000001, .*" \
    project "$interrupted" hunt CFLAGS="-DRACE -w" EXPECT=exception SOURCES="$work/exception.c"
sed 's/printf/while (pulses != 33) ;&/' "$interrupted/firmware.c" > "$work/endless.c"
says "orders whose steps run out" 0 \
    "in [0-9]+ of them the steps ran out before the board was off or idle, so nothing is said of these" \
    project "$interrupted" hunt CFLAGS="-DRACE -w" SOURCES="$work/endless.c"

# A semaphore says whether the other task has come first. If not, the word is touched in no order, or the stack is left.
cp -r "$interrupted" "$work/order"
cat > "$work/order/firmware.c" << 'END'
#include "board.h"
#include "ids.h"

static volatile UINT shared;

void first(VP_INT unused)
{
    shared = (UINT)unused;
    sig_sem(READY);
}

void second(VP_INT unused)
{
    if (pol_sem(READY) == E_OK)
        return;
#ifdef DEEP
    char text[1000];
    memset(text, unused, sizeof text);
#endif
    shared = (UINT)unused;
}
END
printf '%s\n' '#include "ids.h"' 'BOARD(2, 0x10000);' 'CRE_TSK(1, {TA_ACT, 1, first, 1, 256, NULL});' \
    'CRE_SEM(READY, {TA_TFIFO, 0, 1});' 'CLASS(TCL_2) { CRE_TSK(2, {TA_ACT, 2, second, 1, 256, NULL}); }' \
    > "$work/order/firmware.cfg"
echo '#define READY 1' > "$work/order/ids.h"
printf 'board-journal 1\nS 1 60\nS 2 600\n' > "$work/order/firmware.journal"
: > "$work/order/firmware.console"
says "a test without races and overflows" 0 "ok: firmware.journal" project "$work/order" test EXPECT="races stacks"
says "orders by races" 2 "seed [0-9]+: race at shared; the order is kept as $work/build/hunt.journal" \
    project "$work/order" hunt EXPECT=races
verdict "kit: where an order has a race" "$(
    grep -q '^race at shared .*task [12] at [a-z]*+0x[0-9a-f]* (80[0-9a-f]*, firmware.c:[0-9]*), stores$' \
        "$work/said" ||
        cat "$work/said")"
says "orders by stores below a stack" 2 "seed [0-9]+: stack overflow: task 2; the order is kept as .*" \
    project "$work/order" hunt EXPECT=stacks CFLAGS=-DDEEP
says "orders that have a race themselves" 2 "firmware.journal itself isn't as expected: make test EXPECT=\"races\"" \
    project "$adders" hunt EXPECT="console races" CFLAGS=-DRACE
sed 's/printf/*(volatile INT *)1 = 1;&/' "$interrupted/firmware.c" > "$work/exception.c"
says "orders that have an exception themselves" 2 \
    "  last exception at event [0-9]+, of task 1 \\(COUNT\\) at count.*: DBE: store to 00000001, outside RAM" \
    project "$interrupted" hunt EXPECT="exception deadlock" SOURCES="$work/exception.c"

# Lost output: put_chr is refused with the CPU locked, in one schedule only; nothing of it is on the console.
sed 's/^#ifdef RACE/    if (sum == 0 \&\& sum == 3)\n        loc_cpu(), put_chr(65), unl_cpu();\n&/' \
    "$adders/firmware.c" > "$work/lose.c"
says "no lost output under the journal" 0 "ok: firmware.journal" project "$adders" test SOURCES="$work/lose.c" CFLAGS=-w
says "a schedule that loses output" 2 \
    "lost output: 1 character of task 2 \\(SECOND\\), add lose.c:11, first at event [0-9]+: put_chr = E_CTX, .*" \
    project "$adders" explore SOURCES="$work/lose.c" CFLAGS=-w LOOK="--word sum=7"
verdict "kit: how a schedule that loses output fails" "$(
    grep -q '^fails after [0-9]* events: the word at lost_output is 1, not 0..0$' "$work/said" || cat "$work/said")"
says "an order that loses output" 2 "seed [0-9]+: lost output; the order is kept as $work/build/hunt.journal" \
    project "$adders" hunt SOURCES="$work/lose.c" CFLAGS=-w EXPECT=off
sed 's/put_chr(65)/try_put_chr(65) == E_CTX || (sum = 0)/' "$work/lose.c" > "$work/tries.c"
says "schedules in which a program sees to a refusal itself" 0 \
    "none of the schedules fails: at most 100000 events, 1 preemption, 0 ticks and 0 raises" \
    project "$adders" explore SOURCES="$work/tries.c" CFLAGS=-w

cp -r sdk/project "$work/endless"
sed -i '/ext_ker/d' "$work/endless/firmware.c"
printf 'SDK = %s\ninclude $(SDK)/board.mk\n' "$sdk" > "$work/endless/Makefile"

# Two tasks of two processors whose lines come in any order: the semaphore keeps each line whole.
cp -r "$interrupted" "$work/lines"
cat > "$work/lines/firmware.c" << 'END'
#include "board.h"
#include "ids.h"

void pulse(INHNO line)
{
    (void)line;
}

void count(VP_INT number)
{
    wai_sem(WHOLE);
    printf("task %d\n", number);
    sig_sem(WHOLE);
    if (number == 1)
        wai_sem(DONE);
    else
        sig_sem(DONE);
    if (number == 1)
        ext_ker();
}
END
printf '%s\n' 'BOARD(2, 0x10000);' 'CRE_TSK(1, {TA_ACT, 1, count, 1, 1024, NULL});' 'CRE_SEM(1, {TA_TFIFO, 1, 1});' \
    'CRE_SEM(2, {TA_TFIFO, 0, 1});' 'CLASS(TCL_2) { CRE_TSK(2, {TA_ACT, 2, count, 1, 1024, NULL}); }' \
    'DEF_INH(3, {TA_NULL, pulse});' > "$work/lines/firmware.cfg"
printf '#define WHOLE 1\n#define DONE 2\n' > "$work/lines/ids.h"
printf 'board-journal 1\nS 1 9000\nS 2 9000\nS 1 9000\n' > "$work/lines/firmware.journal"
printf 'task 1\ntask 2\n' > "$work/lines/firmware.console"
says "lines in another order" 2 "[+]task [0-9]" project "$work/lines" hunt TRIES=30
says "lines in any order" 0 "ok: 30 orders, from seed 1 on, as expected (lines)" \
    project "$work/lines" hunt TRIES=30 EXPECT=lines
echo 'task 3' >> "$work/lines/firmware.console"
says "a hunt whose journal fails itself" 2 "firmware.journal itself doesn't lead to firmware.console: make test" \
    project "$work/lines" hunt TRIES=30

says "a hunt for the end of what doesn't end" 2 \
    "firmware.journal itself leaves the board on, so no order can be expected to turn it off" \
    project "$work/endless" hunt EXPECT=off

# Wrong words of a hunt.
says "TRIES" 2 "TRIES is a number from 1 to 1000000, and not 'many'" project "$interrupted" hunt TRIES=many
says "JOBS" 2 "JOBS is a number from 1 to 1024, and not '0'" project "$interrupted" hunt JOBS=0
known="console, lines, exception, refused, deadlock, off, races, stacks, or a program with a / in its name"
for what in hunt test; do
    says "EXPECT of a $what" 2 "EXPECT has words of $known, and not 'right'" project "$interrupted" $what EXPECT=right
done
says "EXPECT of a program" 2 "EXPECT names a program that isn't there: './nosuch'" \
    project "$interrupted" hunt EXPECT=./nosuch
says "MOVE" 2 "MOVE has words of raises, ticks, none, and not 'lines'" project "$interrupted" hunt MOVE=lines
says "a journal for a hunt" 2 "sdk/ordered: there is no journal nosuch" project "$interrupted" hunt JOURNAL=nosuch
says "BOARD" 2 "there is no program nosuch: \`make board\` or \`make unpack\` in the clone makes it, or BOARD names it" \
    make -s -C "$interrupted" SDK="$sdk" BUILD="$work/build" BOARD=nosuch test

# A new project, outside of the repository, and mistakes in it.
new=$work/new
says "sdk/new" 0 "$new has a program in C, firmware.c. To build and test it: make -C $new test" sdk/new "$new"
for level in -O0 -O1 -O2 -Os; do
    says "a new project, $level" 0 "ok: firmware.journal" make -s -C "$new" BOARD="$board" test OPTIMIZE=$level
done
{ ls sdk/project; echo Makefile; echo build; } | LC_ALL=C sort > "$work/wanted"
verdict "kit: a new project's files" "$(LC_ALL=C ls "$new" | diff "$work/wanted" -)"

# restored: makes the project's files what sdk/new made them. What is that still keeps its time, so that make leaves it.
restored() {
    local it
    for it in "$sdk"/project/*; do
        cmp -s "$it" "$new/${it##*/}" || cp "$it" "$new"
    done
}

# mistake NAME STATUS TEXT FILE SED ARGUMENT..: changes a file of the project by sed, and makes it.
mistake() {
    local name=$1 status=$2 text=$3 file=$4 edit=$5
    shift 5
    restored
    sed -i "$edit" "$new/$file"
    says "$name" "$status" "$text" project "$new" "$@"
}

overflow='s/printf("Hello/char text[1100]; memset(text, 0, sizeof text); printf("%s", text); &/'
mistake "a stack that overflows, unseen" 0 "ok: firmware.journal" firmware.c "$overflow" test
left="stack overflow: task 1 \\(GREETER\\), event [0-9]+ at .*, stores to [0-9a-f]{8}, [0-9]+ bytes below it"
says "a stack that overflows, in a strict test" 2 "  $left" project "$new" test STRICT=1
says "a stack that overflows, as expected" 2 "  $left" project "$new" test EXPECT=stacks
says "make stacks of a stack that overflows" 2 "$left" project "$new" stacks
mistake "the hint at make stacks" 2 "  $left \\(make stacks JOURNAL=firmware.journal\\)" firmware.c \
    "$overflow; s/Hello, n/Hullo, n/" test
# The function's address is the compiler's affair.
mistake "a stack that overflows" 2 '*' firmware.c "$overflow" test STACK_CHECK=1
verdict "kit: the stack that overflowed" "$(
    grep -qE '^\+the stack has no room for the function at 80[0-9a-f]{6} \(task 1, processor 1\)$' "$work/said" &&
        grep -qE '^task 1 .*, at stop\+0x[0-9a-f]+ \(80[0-9a-f]{6}, [a-z]+\.[ch]:[0-9]+\)$' "$work/said" &&
        grep -qE '^80[0-9a-f]{6} is greet firmware.c:[0-9]+$' "$work/said" || cat "$work/said")"
# The summary of the trace names the function, its line and the cause.
mistake "a store outside RAM" 2 '*' firmware.c 's/ER answer = wai_sem/*(volatile INT *)16 = i; &/' test OPTIMIZE=-O0
verdict "kit: the store outside RAM" "$(
    cause='last exception at event [0-9]+, of task 1 \(GREETER\) at greet\+0x[0-9a-f]+ \(80[0-9a-f]{6}, firmware\.c:1[0-9]\): DBE: store to 00000010, outside RAM'
    grep -qE "^  $cause\$" "$work/said" &&
        grep -qE '^80[0-9a-f]{6} is greet firmware.c:1[0-9]$' "$work/said" || cat "$work/said")"
mistake "a handler's stack that overflows" 2 \
    "the stack has no room for the function at 80[0-9a-f]{6} \\(handler of line 3 \\(BUTTON\\), processor 1\\)" \
    ids.h '' test STACK_CHECK=1 HANDLER_STACK=16
verdict "kit: the handler that has no room" "$(grep -q '^80[0-9a-f]* is press firmware.c:6$' "$work/said" ||
    cat "$work/said")"
mistake "a large stack" 0 "ok: firmware.journal" firmware.cfg 's/1024/40000/' test STACK_CHECK=1
mistake "an assertion in a task" 2 "firmware.c:16: this doesn't hold: i < 2 (task 1 (GREETER), processor 1)" \
    firmware.c 's/answer == E_OK/i < 2/' test CFLAGS=-w
mistake "an assertion of a CPU-locked task" 2 \
    "firmware.c:16: this doesn't hold: loc_cpu() != E_OK (task 1 (GREETER), processor 1)" \
    firmware.c 's/answer == E_OK/loc_cpu() != E_OK/' test CFLAGS=-w
mistake "an assertion in a handler" 2 \
    "firmware.c:7: this doesn't hold: line != BUTTON (handler of line 3 (BUTTON), processor 1)" \
    firmware.c 's/line == BUTTON/line != BUTTON/' test
verdict "kit: the board at an assertion in a handler" "$(
    [ "$(grep -c '^refused: ' "$work/said")" = 0 ] &&
        grep -q '^cpu 1 stopped, last step at event [0-9]*$' "$work/said" &&
        ! grep -q '^after event 104103' "$work/said" || cat "$work/said")"
mistake "a report of an assertion in a handler" 0 \
    "firmware.c:7: this doesn't hold: line != BUTTON (handler of line 3 (BUTTON), processor 1)" \
    firmware.c 's/line == BUTTON/line != BUTTON/' run
mistake "an assertion in a handler, after all that is shown" 2 \
    "firmware.c:7: this doesn't hold: ++calls < 3 (handler of line 3 (BUTTON), processor 1)" \
    firmware.c 's/assert(line == BUTTON)/static INT calls; isig_sem(PRESSED); assert(++calls < 3); return/' test
restored
sed -i 's/answer == E_OK/i < 2/; s/printf("Hello/for (INT j = 0; j < 65536; j++) put_chr(65);&/' "$new/firmware.c"
echo "S 1 2000000" >> "$new/firmware.journal"
says "an assertion with a full console" 2 "firmware.c:16: this doesn't hold: i < 2 (task 1 (GREETER), processor 1)" \
    project "$new" test CFLAGS=-w
verdict "kit: what a full console has lost" "$(
    grep -q '^  lost output: 21 characters of task 1 (GREETER), printf in greet firmware.c:17, .*= E_QOVR, the console is full$' \
        "$work/said" || cat "$work/said")"

# What a handler writes, and a task under a lock, is lost: each command says it, and takes no such console for right.
lost="first at event [0-9]+: put_chr = E_CTX, handlers and CPU-locked tasks can't write"
by_handler="lost output: 12 characters of handler 3 \\(BUTTON\\), printf in press firmware.c:7, $lost"
mistake "printf in a handler" 2 "  $by_handler" firmware.c 's/assert(line == BUTTON)/printf("(%d)\\n", line)/' test
says "a console that lacks output" 2 "FAILED: firmware.journal: firmware.console is left as it is" project "$new" accept
says "a hunt whose journal loses output" 2 "  $by_handler" project "$new" hunt TRIES=3
says "a report of lost output" 0 "$by_handler" project "$new" run
restored
sed -i 's/printf("Hello/loc_spn(3); printf("%d bytes", i); unl_spn(3); &/' "$new/firmware.c"
echo 'CRE_SPN(3, {TA_NULL});' >> "$new/firmware.cfg"
says "printf under a spin lock" 2 \
    "  lost output: 21 characters of task 1 \\(GREETER\\), printf in greet firmware.c:17, $lost" \
    project "$new" test STRICT=1
mistake "a call of its own that nobody looks at" 2 \
    "  lost output: 3 characters of handler 3 \\(BUTTON\\), press firmware.c:7, $lost" \
    firmware.c 's/assert(line == BUTTON)/(put_chr)(line)/' test
mistake "a refusal that the program sees to" 0 "ok: firmware.journal" \
    firmware.c 's/assert(line == BUTTON)/assert(try_put_chr(line) == E_CTX)/' test STRICT=1
mistake "snprintf in a handler" 2 "+Hello, number 33 of 3" \
    firmware.c 's/assert(line == BUTTON)/snprintf(text, sizeof text, "<%d>", line)/; s/^void press/char text[8]; &/
        s/number %d of %d\\n", i/number %d%c of %d\\n", i, text[1]/' test
restored
sed -i 's/answer == E_OK/loc_spn(3) != E_OK/' "$new/firmware.c"
echo 'CRE_SPN(3, {TA_NULL});' >> "$new/firmware.cfg"
says "an assertion under a spin lock" 2 \
    "firmware.c:16: this doesn't hold: loc_spn(3) != E_OK (task 1 (GREETER), processor 1)" project "$new" test CFLAGS=-w
mistake "a console of a task that returns" 2 "+Hullo, number 2 of 3" firmware.c 's/Hello/Hullo/; /ext_ker/d' test
verdict "kit: names of the configuration, and a task that has returned" "$(
    where='at returned_from_greet\.1\+0x4 \((80[0-9a-f]{6}), entries\.inc:[0-9]+\)$'
    [[ "$(grep '^task 1 ' "$work/said")" =~ ^'task 1 (GREETER) dormant since event '[0-9]+,\ $where ]] &&
        grep -qxF "${BASH_REMATCH[1]} is where task 1 (GREETER) ends: greet has returned" "$work/said" ||
        cat "$work/said")"
mistake "a wait, with its names" 2 \
    "task 1 \\(GREETER\\) waiting .*, wai_sem\\(PRESSED\\) waits for semaphore 1 \\(PRESSED\\)[0-9]*" \
    firmware.journal '/R 3 1/d' test EXPECT=deadlock
verdict "kit: a deadlock in a test" "$(
    grep -q '^  deadlock: no task is ready, ' "$work/said" || cat "$work/said")"
mistake "a name that isn't one of an ID" 2 \
    "task 1 waiting since event .*, wai_sem\\(PRESSED\\) waits for semaphore 1 \\(PRESSED\\)[0-9]*" \
    firmware.cfg 's/GREETER/0 + 1/; s/, 3, greet/, 4, greet/' test
mistake "a function that isn't there" 2 "(.text.start+0x8): undefined reference to \`greeet'" \
    firmware.cfg 's/greet/greeet/' all
mistake "a wrong line of the configuration" 2 \
    "firmware.cfg:5: this kernel hasn't CRE_MTX (mutexes are there with PROFILE(STANDARD); before BOARD: else use CRE_SEM with a maximum of 1)" \
    firmware.cfg 's/CRE_SEM/CRE_MTX/' all
mkdir "$new/more"
echo 'extern int twice(int n); int twice(int n) { return 2 * n; }' > "$new/more/print.c"
mistake "several sources" 2 "+Hello, number 1 of 6" firmware.c '/^void press/iint twice(int n);
s/, times)/, twice(times))/' test SOURCES="firmware.c more/print.c"
rm -r "$new/more"

# What a program is made of: sources of other folders and in assembler, libraries, sections, constructors.
mkdir -p "$work/outside"
echo 'int twice(int n); int twice(int n) { return 2 * n; }' > "$work/outside/twice.c"
mistake "a source of another folder" 2 "+Hello, number 1 of 6" firmware.c '/^void press/iint twice(int n);
s/, times)/, twice(times))/' test SOURCES="firmware.c ../outside/twice.c"
verdict "kit: its object file" "$(
    [ -e "$work/build/objects/up/outside/twice.c.o" ] && [ "$(ls "$work/outside")" = twice.c ] || ls "$work/outside")"
printf '#include "ids.h"\n.set noreorder\n.globl twice\ntwice: jr $ra\naddiu $v0, $a0, BUTTON\n' > "$work/outside/two.S"
mistake "a source in assembler" 2 "+Hello, number 1 of 6" firmware.c '/^void press/iint twice(int n);
s/, times)/, twice(times))/' test SOURCES="firmware.c ../outside/two.S"
printf '.set noreorder\n.globl twice\ntwice: jr $ra\nsll $v0, $a0, 1\n' > "$work/outside/two.s"
mistake "a source in assembler without preprocessor" 2 "+Hello, number 1 of 6" firmware.c \
    '/^void press/iint twice(int n);
s/, times)/, twice(times))/' test SOURCES="firmware.c ../outside/two.s"
says "a source of another language" 2 \
    "$sdk/board.mk:[0-9]+: \*\*\* a source is NAME.c, NAME.S or NAME.s, and not 'hello.cpp'.  Stop." \
    project "$new" SOURCES="firmware.c hello.cpp"
says "a source that isn't there" 2 \
    "make: \*\*\* No rule to make target 'nosuch.c', needed by '.*/objects/nosuch.c.o'.  Stop.[0-9]*" \
    project "$new" SOURCES="firmware.c nosuch.c"
echo '#define NUMBER 7' > "$work/outside/number.h"
printf '#include "number.h"\nint twice(int n); int twice(int n) { return NUMBER * n; }\n' > "$work/outside/twice.c"
mistake "a header of another folder" 2 "+Hello, number 1 of 21" firmware.c '/^void press/iint twice(int n);
s/, times)/, twice(times))/' test SOURCES="firmware.c ../outside/twice.c"
sleep 1
echo '#define NUMBER 8' > "$work/outside/number.h"
says "a header that has changed" 2 "+Hello, number 1 of 24" project "$new" test SOURCES="firmware.c ../outside/twice.c"
touch -d '+2 seconds' "$new/ids.h"
make -C "$new" SDK="$sdk" BOARD="$board" BUILD="$work/build" SOURCES="firmware.c ../outside/twice.c" > "$work/said" 2>&1
verdict "kit: what a changed header builds" "$(
    grep -q ' firmware.c$' "$work/said" && ! grep -q 'twice\.c$\|print\.c$' "$work/said" || cat "$work/said")"
printf 'int printf(const char *format, ...); int printf(const char *format, ...) { return put_chr(*format); }\n' |
    cat <(echo '#include "kernel.h"') - > "$work/outside/mine.c"
project "$new" "$work/build/objects/up/outside/mine.c.o" SOURCES="firmware.c ../outside/mine.c"
mips-linux-gnu-ar rc "$work/outside/libmine.a" "$work/build/objects/up/outside/mine.c.o"
mistake "a library" 2 "+HHH" firmware.c '' test LIBS="$work/outside/libmine.a"
mkdir "$new/data"
printf 'abc' > "$new/data/x-y.bin"
mistake "the bytes of a file" 2 "+Hello, number 1 of 6" firmware.c \
    's/, times)/, 2 * (_binary_data_x_y_bin_end - _binary_data_x_y_bin_start))/
        s/^void press/extern const char _binary_data_x_y_bin_start[], _binary_data_x_y_bin_end[];\n&/' \
    test DATA=data/x-y.bin
printf 'abcd' > "$new/data/x-y.bin"
says "the bytes of a file that has changed" 2 "+Hello, number 1 of 8" project "$new" test DATA=data/x-y.bin
rm -r "$new/data"
mistake "a section of another name" 2 "mips-linux-gnu-ld: the program, its stacks and memory pools don't fit into RAM" \
    firmware.c '$a__attribute__((section(".mine,\\"aw\\",@nobits#"))) char pool[61400];' all
mistake "a section .noinit" 2 "mips-linux-gnu-ld: the program, its stacks and memory pools don't fit into RAM" \
    firmware.c '$a__attribute__((section(".noinit"))) char pool[61400];' all
mistake "a constructor" 2 "mips-linux-gnu-ld: nobody calls constructors here: call these functions from a task" \
    firmware.c '$a__attribute__((constructor)) static void first(void) { isig_sem(PRESSED); }' all
mistake "a header of this system" 2 "firmware.c:1:10: fatal error: string.h: No such file or directory[0-9]*" \
    firmware.c '1i#include <string.h>' all
mistake "headers of the compiler" 0 "ok: firmware.journal" firmware.c '1i#include <stdint.h>
1i#include <stddef.h>
1i#include <limits.h>
1i#include <stdbool.h>' test

# Values of the configuration: expressions, constants of itron.h, and what is none.
mistake "expressions in the configuration" 0 "ok: firmware.journal" firmware.cfg \
    's/1024/2 * (256 + 256)/; s/, 3, greet, 1/, (VP_INT)(7 - 4), greet, TMIN_TPRI/; s/0x10000/1 << 16/' test
mistake "a negative argument" 0 "*" firmware.cfg 's/, 3, greet/, -5, greet/' all
verdict "kit: the negative argument" "$(grep -q ', 4294967291, task_1' "$work/build/firmware.cfg" ||
    cat "$work/build/firmware.cfg")"
mistake "an expression of a name that isn't there" 2 \
    "firmware.cfg:4:[0-9]+: error: .MANY. undeclared \(first use in this function\).*" \
    firmware.cfg 's/1024/2 * MANY/' all
mistake "a place that no name has" 2 \
    "firmware.cfg:4: '(VP_INT)&\"text\"[1]' is no number, nor the name of a place in the program" \
    firmware.cfg 's/, 3, greet/, (VP_INT)\&"text"[1], greet/' all

# Several programs in one project, each with tests of its own.
mkdir "$work/several"
for it in one two; do
    cp "$sdk/project/firmware.cfg" "$work/several/$it.cfg"
    cp "$sdk/project/ids.h" "$work/several"
    sed "s/Hello/I am $it/" "$sdk/project/firmware.c" > "$work/several/$it.c"
    for test in "$it" "$it.late"; do
        cp "$sdk/project/firmware.journal" "$work/several/$test.journal"
        sed "s/Hello/I am $it/" "$sdk/project/firmware.console" > "$work/several/$test.console"
    done
done
printf 'SDK = %s\nPROGRAMS = one two\nSOURCES_two = two.c more.c\ninclude $(SDK)/board.mk\n' "$sdk" \
    > "$work/several/Makefile"
echo 'int more;' > "$work/several/more.c"
says "several programs" 0 "ok: two.late.journal" project "$work/several" test
verdict "kit: their tests" "$(printf 'ok: %s.journal\n' one one.late two two.late | diff - "$work/said")"
says "one of several programs" 0 "I am two, number 3 of 3" project "$work/several" run PROGRAM=two
says "a journal of one of several programs" 0 "I am one, number 3 of 3" \
    project "$work/several" run JOURNAL=one.late.journal
says "no program" 2 "$sdk/board.mk:[0-9]+: \*\*\* PROGRAM is one of 'one two', and not 'three'.  Stop." \
    project "$work/several" run PROGRAM=three
echo wrong > "$work/several/one.console"
says "several programs, of which one fails" 2 "ok: two.late.journal" project "$work/several" test
mistake "stacks that don't fit" 2 "mips-linux-gnu-ld: the program, its stacks and memory pools don't fit into RAM" \
    firmware.cfg 's/1024/65536/' all
# (one of the kernel's memory pools lies below the stacks, or in a variable)
printf '#include "itron.h"\nextern UW large[];\nUW large[LARGE / 4];\n' > "$work/outside/large.c"
with_large=(SOURCES="firmware.c ../outside/large.c")
pool='1iPROFILE(STANDARD);
$aCRE_MPF(1, {TA_TFIFO, 2, 4097, NULL});'
mistake "a memory pool that doesn't fit" 2 "mips-linux-gnu-ld: the program, its stacks and memory pools don't fit into RAM" \
    firmware.cfg "$pool" all CFLAGS=-DLARGE=54000 "${with_large[@]}"
mistake "a memory pool that fits" 0 "ok: firmware.journal" \
    firmware.cfg "$pool" test CFLAGS=-DLARGE=46000 "${with_large[@]}"
mistake "a memory pool in a variable" 0 "ok: firmware.journal" \
    firmware.cfg "${pool/NULL/large}" test CFLAGS=-DLARGE=54000 "${with_large[@]}"
mistake "a program that doesn't fit" 2 "mips-linux-gnu-ld: the program, its stacks and memory pools don't fit into RAM" \
    firmware.c '$aUB large[65536];' all
mistake "an unknown conversion" 2 \
    "\\+Hello, number the kit's printf has no conversion %n, called before 80[0-9a-f]{6} \\(task 1, processor 1\\)" \
    firmware.c 's/number %d of/number %n of/' test CFLAGS=-w
mistake "a conversion of floating point" 2 '*' firmware.c 's/number %d of %d.n", i/number %f of %d\\n", 0.5/' all
verdict "kit: a conversion of floating point isn't compiled" "$(
    grep -qE "^firmware\.c:17:.* \"?the kit.?'s printf has no floating point; the C library.?'s has" "$work/said" ||
        cat "$work/said")"
mistake "floating point" 2 '*' firmware.c '$aint half(int n); int half(int n) { return n * 0.5; }' all
verdict "kit: floating point isn't linked" \
    "$(grep -q "undefined reference to \`__muldf3'" "$work/said" || cat "$work/said")"
mistake "another console" 2 "+Hullo, number 2 of 3" firmware.c 's/Hello/Hullo/' test
mistake "a journal with too few steps" 2 \
    "the steps of the journal have run out: the board is on, and processor 1 runs task 1 (GREETER)" \
    firmware.journal 's/S 1 100000/S 1 100/' test
mistake "a handler that doesn't end" 2 \
    "the steps of .* the board is on, and processor 1 runs handler 3 \\(BUTTON\\) at 80[0-9a-f]{6}" \
    firmware.c 's/assert(line == BUTTON)/while (*(volatile INHNO *)\&line != 0)/' test
verdict "kit: where the handler is" "$(grep -q '^80[0-9a-f]* is press firmware.c:7$' "$work/said" || cat "$work/said")"
restored
cp "$new/firmware.journal" "$new/other.journal"
says "a journal without a console" 2 "If that is right: make accept" project "$new" test
says "a console that is accepted" 0 "accepted: other.console" project "$new" accept
says "a console that was accepted" 0 "ok: other.journal" project "$new" test
echo 'S 1 0' >> "$new/other.journal"
says "a journal that has a fault" 2 "FAILED: other.journal" project "$new" test
rm "$new"/other.*

# Strict tests: an exception, a refused call whose answer nobody looks at, a board that is on.
mistake "a strict test" 0 "ok: firmware.journal" firmware.c '' test STRICT=1
mistake "a strict test of a board that is on" 2 "  the board is on in the end" firmware.c '/ext_ker/d' test STRICT=1
verdict "kit: a strict test whose output nobody reads" "$(
    project "$new" test STRICT=1 2>&1 > >(head -n 1 > "$work/out") | grep -v '^make: ')"
verdict "kit: a strict test says that the console is right" "$(
    grep -qx 'FAILED: firmware.journal: the console is firmware.console, but' "$work/said" || cat "$work/said")"
mistake "a strict test of an exception" 2 \
    "  last exception at event [0-9]+, of task 1 \\(GREETER\\) at greet.*: DBE: store to 00000010, outside RAM" \
    firmware.c 's/^    }$/    }\n    *(volatile INT *)16 = 1;/' test STRICT=1
mistake "a strict test of a refused call" 2 \
    "  chg_pri\\(99, 1\\) = E_NOEXS at event [0-9]+, at greet firmware.c:19: nobody looks at the answer" \
    firmware.c 's/^    }$/    }\n    chg_pri(99, 1);/' test STRICT=1
mistake "a strict test of a refused call whose answer is looked at" 0 "ok: firmware.journal" firmware.c \
    's/^    }$/    }\n    if (chg_pri(99, 1) == E_OK)\n        put_chr(65);/' test STRICT=1
mistake "a strict test of a refused call in a handler" 2 \
    "  iact_tsk\\(GREETER\\) = E_QOVR at event [0-9]+, at press firmware.c:9: nobody looks at the answer" firmware.c \
    "s/^    isig_sem(PRESSED);/&\n    iact_tsk(GREETER), iact_tsk(GREETER);/" test STRICT=1
restored
sed -i 's/^    }$/    }\n    twai_sem(PRESSED, 2);/' "$new/firmware.c"
printf 'T 4\nS 1 1000\n' >> "$new/firmware.journal"
says "a strict test of a wait that is refused" 2 \
    "  twai_sem\\(PRESSED, 2\\) = E_TMOUT at event [0-9]+, for task 1 \\(GREETER\\): nobody looks at the answer" \
    project "$new" test STRICT=1
says "STRICT" 2 "$sdk/board.mk:[0-9]+: \\*\\*\\* STRICT is 1 or nothing, and not 'yes'.  Stop." \
    project "$new" STRICT=yes

# Reports for build servers, of several programs and of names that XML has no way to say; tests at the same time.
says "a report of several programs" 2 "ok: two.late.journal" \
    project "$work/several" test REPORT="$work/report.xml" JOBS=3
cp "$work/said" "$work/three"
cp "$work/report.xml" "$work/three.xml"
says "the same tests one by one" 2 "ok: two.late.journal" project "$work/several" test REPORT="$work/report.xml" JOBS=1
verdict "kit: tests at the same time" "$(diff "$work/said" "$work/three";
    diff <(sed 's/ time="[0-9.]*"//' "$work/report.xml") <(sed 's/ time="[0-9.]*"//' "$work/three.xml"))"
restored
project "$new" all
hostile=('a<b>&"c'\''.journal' $'\x01 \xc3\xa9 ]]>.journal' $'\xff.journal')
for it in "${hostile[@]}"; do
    cp "$new/firmware.journal" "$work/$it"
done
cp "$new/firmware.console" "$work/${hostile[0]%.journal}.console"
printf 'Hello\1\377<]]>\n' > "$work/${hostile[1]%.journal}.console"
rm "$work/report.xml"
(cd "$work" && "$sdk/test" --junit report.xml --jobs 2 "$board" build/firmware.elf build/firmware.cfg "${hostile[@]}") \
    > "$work/said" 2>&1
verdict "kit: a report of hostile names" "$(cd "$work" && python3 - 2>&1 << 'END'
from xml.etree import ElementTree
suite, = ElementTree.parse("report.xml").getroot()
cases = [(it.get("name"), [len(failure.text) > 20 for failure in it]) for it in suite]
wanted = [("a<b>&\"c'", []), ("\\x01 \u00e9 ]]>", [True]), ("\\xff", [True])]
if cases != wanted or suite.get("failures") != "2" or suite.get("tests") != "3":
    print(ascii(cases), suite.attrib)
END
)"
verdict "kit: reports of two programs" "$(python3 - "$work/three.xml" 2>&1 << 'END'
import sys
from xml.etree import ElementTree
suites = [(it.get("name"), it.get("tests"), it.get("failures")) for it in ElementTree.parse(sys.argv[1]).getroot()]
if suites != [("one", "2", "1"), ("two", "2", "0")]:
    print(suites)
END
)"

# Where the program has a command `trace`, its summary stands in the place of the report.
cat > "$work/tracing" << END
#!/bin/sh
case \$1 in
    --help) echo "  trace  Show what happened" ;;
    trace) echo "task 2 waits: \$#, \$5" ;;
    *) exec "$board" "\$@" ;;
esac
END
chmod +x "$work/tracing"
board=$work/tracing mistake "a summary of board trace" 2 "task 2 waits: 5, --summary" firmware.c 's/Hello/Hullo/' test

# The debugger with the names of C, on a word to which two processors add: which lines it writes, as patterns.
if have python3 "sdk/debug"; then
    project "$shared" hunt CFLAGS=-DRACE TRIES=100 > "$work/out" 2> "$work/err"
    cat > "$work/session" << 'END'
watch added|ok
end|at [0-9]+: the end
back|at [0-9]+: processor [12] in add \(firmware\.c:[0-9]+\), added: 000000[0-9a-f]{2} -> 000000[0-9a-f]{2}
mem added|000000[0-9a-f]{2}
mem added+3|[0-9a-f]{2}
break adder|ok
break firmware.c:0|no code begins at firmware\.c:0; the next line with code is firmware\.c:[0-9]+
goto 0|at 0: line 3 \(TICKED\) is raised
next|at [0-9]+: processor [12] in adder \(firmware\.c:[0-9]+\)
regs 1|pc 80[0-9a-f]{6} [a-z_0-9]+ \([a-z]+\.[a-zS]+:[0-9]+\)
watch nothing|the program has no variable 'nothing'
mem nothing+1|the program has no variable 'nothing\+1'
mem adder+x|after \+ stands a number, and not 'x'
mem lock+99999999999|outside
mem added+0x3|[0-9a-f]{2}
mem 0x80000000|[0-9a-f]{2}
mem 80000000|[0-9a-f]{2}
mem 0x7fffffff|outside
mem $sp+8|[0-9a-f]{2}
mem $sp+x|after \+ stands a number, and not 'x'
watch 0x80000003|ok
watch $t0|a register can't be watched: break at the instructions that write it
$t0|[0-9a-f]{8}
$8 2|[0-9a-f]{8}
$pc 2|80[0-9a-f]{6} [a-z_0-9]+ \([a-z]+\.[a-zS]+:[0-9]+\)
$zero|00000000
$t0 3|processor 3 executes nothing here
$t10|there is no register \$t10
$t0 x|unknown \(help lists the commands\)
break add|ok
break spin_lock|ok
break adder+0x8|ok
break 0x80000000|ok
break nothing|the program has no function 'nothing'
break 0x8000000g|the program has no function '0x8000000g'
break wai_flg|the program calls wai_flg nowhere
break try_spin|the program has no function 'try_spin'
break added|added is a variable, and no code; where it changes: watch added
break added+1|added\+1 is a variable, and no code; where it changes: watch added\+1
break nothing.c:7|the program has no code of a file nothing\.c: board\.h, entries\.inc, firmware\.c, .*
break firmware.c:99|no code begins at firmware\.c:99, nor after it; the last line with code is firmware\.c:[0-9]+
break firmware.c:x|no code begins at firmware\.c:x, nor after it; .*
break|unknown \(help lists the commands\)
goto 99999999999|past [0-9]+
jump|unknown \(help lists the commands\)
|unknown \(help lists the commands\)
END
    cut -d '|' -f 1 "$work/session" > "$work/in"
    project "$shared" debug CFLAGS=-DRACE JOURNAL="$work/build/hunt.journal" < "$work/in" 2> "$work/err" |
        grep -v '^\$' > "$work/out"
    wrong=$(cat "$work/err")
    [ "$(wc -l < "$work/out")" = "$(wc -l < "$work/in")" ] || wrong="$wrong; other answers: $(cat "$work/out")"
    while IFS='|' read -r -u 3 command pattern && IFS= read -r -u 4 answer; do
        [[ "$answer" =~ ^$pattern$ ]] || wrong="$wrong; '$command' is answered by '$answer'"
    done 3< "$work/session" 4< "$work/out"
    verdict "kit: sdk/debug" "$wrong"
    # Service calls, and other functions, are compiled into their callers; a line without code; the source; a step.
    printf '%s\n' 'break loc_cpu' next list step 'break firmware.c:1' help | project "$shared" debug > "$work/out" 2>&1
    verdict "kit: sdk/debug at a service call" "$(
        grep -qE '^at [0-9]+: processor [12] in adder \(firmware\.c:[0-9]+\)$' "$work/out" &&
            grep -qE '^> +[0-9]+ +loc_cpu\(\);$' "$work/out" && grep -q '^quit                      end$' "$work/out" &&
            grep -qE '^no code begins at firmware\.c:1; the next line with code is firmware\.c:[0-9]+$' "$work/out" ||
            cat "$work/out")"
    for inlined in 'spin_lock|(interrupt|adder)' 'add|add' 'swap|swap'; do
        printf 'break %s\nnext\n' "${inlined%%|*}" | project "$shared" debug > "$work/out" 2>&1
        verdict "kit: sdk/debug at a function without code of its own, ${inlined%%|*}" "$(
            grep -qE "^at [0-9]+: processor [12] in ${inlined#*|} \(firmware\.c:[0-9]+\)\$" "$work/out" ||
                cat "$work/out")"
    done
    # (one after the other, since both build)
    echo help | project "$shared" debug > "$work/help" 2>&1
    echo '?' | project "$shared" debug > "$work/out" 2>&1
    verdict "kit: sdk/debug's help" "$(diff "$work/help" "$work/out"; [ -s "$work/help" ] || echo "it says nothing")"
    # Registers by their names: those of `regs`, and each alone.
    printf '%s\n' 'goto 300' 'regs 1' | project "$shared" debug | tail -n +2 > "$work/registers"
    sed 's/ .*/ 1/; s/^pc/$pc/' "$work/registers" | { echo 'goto 300'; cat; } | project "$shared" debug |
        tail -n +2 > "$work/out"
    verdict "kit: sdk/debug's registers" "$(
        [ "$(wc -l < "$work/out")" -gt 3 ] || echo "few registers"
        sed 's/^[^ ]* //' "$work/registers" | diff - "$work/out")"
    # An object file of `board asm` has no sizes of symbols and no lines.
    "$board" asm examples/lost_update/racy.s "$work/racy.elf"
    printf '%s\n' 'watch count' end back 'mem count' list 'break racy.s:3' 'break wai_sem' '$t0' where \
        'break adder' back |
        sdk/debug "$board" "$work/racy.elf" examples/lost_update/racy.cfg examples/lost_update/racy.journal \
        > "$work/out"
    printf '%s\n' ok 'at 110: the end' 'at 71: processor 1 in again+0x8, count: 00000006 -> 00000007' 00000006 \
        'there is no source of again+0x8' 'the program has no lines of C, only names: break NAME' \
        "the program has no function 'wai_sem'" 00000007 'processor 1 in again+0x8' ok \
        'at 65: processor 1 in again+0x8, count: 00000005 -> 00000006' > "$work/wanted"
    verdict "kit: sdk/debug of a program in assembler" "$(diff "$work/wanted" "$work/out")"
    verdict "kit: sdk/debug without the tools" "$(
        CROSS=nosuch- sdk/debug "$board" "$work/racy.elf" examples/lost_update/racy.cfg \
            examples/lost_update/racy.journal < "$work/nothing" 2>&1 |
            diff <(echo "there is no nosuch-nm, which reads the names of a program: apt-get install binutils-mips-linux-gnu") -)"
    says "sdk/debug without a program" 2 "there is no object file nosuch" sdk/debug "$board" nosuch config journal
    says "LIBC" 2 "$sdk/board.mk:[0-9]+: \\*\\*\\* LIBC is 1 or nothing, and not 'yes'.  Stop." \
        project "$shared" LIBC=yes
    printf 'quit\nend\n' | project "$shared" debug CFLAGS=-DRACE > "$work/out" 2> "$work/err"
    check "kit: sdk/debug ends by quit" 0 "$work/nothing" "" $?
    says "sdk/debug without a journal" 2 "sdk/ordered: there is no journal nosuch" \
        project "$shared" debug JOURNAL=nosuch
fi
summary
