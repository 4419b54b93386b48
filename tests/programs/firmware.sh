#!/bin/bash
# The C library of sdk/libc, and real code with it (tests/programs/firmware): tests/programs/firmware.sh PROGRAM. It
# takes GCC for MIPS and Debian's source packages, and at most so many seconds; where something is missing a line says
# that it is skipped.
. "$(dirname "$0")/check.sh"
SECONDS_AT_MOST=120
for tool in python3 make cc mips-linux-gnu-gcc; do
    have "$tool" "the C library, and real code" || { summary; exit; }
done

started=$SECONDS
if ! timeout "$SECONDS_AT_MOST" sdk/libc > "$work/out" 2>&1; then
    why=$(tail -n 1 "$work/out" | grep . || echo "it takes too long here")
    skip "the C library, and real code" "Debian's source packages ($why)"
    summary
    exit
fi

# library NAME TEXT ARGUMENT..: makes the project in tests/data/library, which has to print TEXT.
library() {
    local name=$1 text=$2
    shift 2
    make -s -C tests/data/library BOARD="$board" BUILD="$work/build" "$@" > "$work/said" 2>&1
    verdict "the C library, $name" "$(grep -qxF -- "$text" "$work/said" || head -c 1500 "$work/said")"
}
for level in -O0 -O2; do
    for order in big little; do
        library "$order, $level" "ok: firmware.journal" test OPTIMIZE=$level ORDER=$order
    done
done
library "malloc on two processors" "ok: firmware.journal" test
library "no race of malloc on two processors" "races: 0 words" races
make -s -C tests/data/library BOARD="$board" BUILD="$work/build" hunt TRIES=5 > "$work/said" 2>&1
verdict "the C library, malloc in other orders" "$(grep -q '^ok: [0-9]* orders, ' "$work/said" || cat "$work/said")"

# What a handler writes by the C library's printf is lost: where, is seen through the library's own calls.
sdk/new "$work/lost" > "$work/said"
sed -i 's/assert(line == BUTTON)/printf("line %d\\n", line)/' "$work/lost/firmware.c"
sed -i 's/0x10000/0x40000/; s/1024/4096/' "$work/lost/firmware.cfg"
make -s -C "$work/lost" BOARD="$board" LIBC=1 HANDLER_STACK=4096 test > "$work/said" 2>&1
verdict "the C library, output that is lost" "$(
    grep -q '^  lost output: 21 characters of handler 3 (BUTTON), printf in press firmware.c:7, first at event ' \
        "$work/said" ||
        cat "$work/said")"

sed -i 's/^ *printf("line.*/    assert(line != BUTTON);/' "$work/lost/firmware.c"
make -s -C "$work/lost" BOARD="$board" LIBC=1 HANDLER_STACK=4096 test > "$work/said" 2>&1
verdict "the C library, an assertion" "$(
    grep -qxF "firmware.c:7: this doesn't hold: line != BUTTON (handler of line 3 (BUTTON), processor 1)" \
        "$work/said" ||
        cat "$work/said")"

# What malloc takes lies below the kernel's memory pools.
cat > "$work/lost/firmware.c" << 'END'
#include <stdlib.h>
#include "board.h"
#include "ids.h"

void press(INHNO line)
{
    (void)line;
}

void greet(VP_INT blocks)
{
    char *lowest = (char *)-1;
    char *taken;
    UINT bytes = 0;
    VP block;
    for (INT i = 0; i < blocks; i++)
        if (get_mpf(1, &block) == E_OK && (char *)block < lowest)
            lowest = block;
    while ((taken = malloc(1000)) != NULL) {
        assert(taken + 1000 <= lowest);
        bytes += 1000;
    }
    assert(bytes > 10000);
    printf("the blocks begin at %p\n", (void *)lowest);
    ext_ker();
}
END
sed -i '1iPROFILE(STANDARD);
$aCRE_MPF(1, {TA_TFIFO, 3, 6001, NULL});' "$work/lost/firmware.cfg"
echo 'the blocks begin at 0x8003a9a4' > "$work/lost/firmware.console"
make -s -C "$work/lost" BOARD="$board" LIBC=1 test > "$work/said" 2>&1
verdict "the C library, malloc beside a memory pool" "$(grep -qxF "ok: firmware.journal" "$work/said" || cat "$work/said")"

left=$((SECONDS_AT_MOST - (SECONDS - started)))
lines=$(timeout "$((left > 1 ? left : 1))" tests/programs/firmware --short "$board" 2>&1)
if [ $? = 124 ]; then
    skip "real code on the board" "more than $SECONDS_AT_MOST seconds, which 'make firmware' takes"
elif [[ "$(tail -n 1 <<< "$lines")" =~ ^([0-9]+)\ passed,\ ([0-9]+)\ failed$ ]]; then
    passed=$((passed + BASH_REMATCH[1]))
    failed=$((failed + BASH_REMATCH[2]))
    while IFS= read -r line; do
        case $line in
            SKIP\ *) name=${line#SKIP } && skip "${name%%: wants*}" "${name#*: wants }" ;;
            *) echo "$line" ;;
        esac
    done < <(sed '$d' <<< "$lines")
else
    fail "real code on the board" "$lines"
fi
summary
