#!/bin/bash
# Random and spoiled inputs of every command: tests/programs/fuzz.sh PROGRAM. First, that tests/programs/fuzz tells a
# program that ends wrongly: each of these does what its row says, and ends as the program otherwise.
. "$(dirname "$0")/check.sh"
have python3 "random and spoiled inputs" || { summary; exit; }

# tells NAME REASON OPTION..: tests/programs/fuzz has to fail with the program $work/spoiled, for a reason that matches.
tells() {
    local name=$1 reason=$2
    shift 2
    if tests/programs/fuzz "$work/spoiled" --count 12 --keep "$work/kept" --samples "$work/samples" "$@" \
        > "$work/out" 2>&1; then
        fail "fuzz: $name" "it passes"
    else
        verdict "fuzz: $name" "$(grep -qE "^seed [0-9]+ \([a-z]+\): $reason" "$work/out" || head -n 3 "$work/out")"
    fi
}

# spoiled NAME KIND REASON COMMANDS [OPTION..]: the program does these commands first.
spoiled() {
    local name=$1 kind=$2 reason=$3
    printf '#!/bin/bash\n[ "$1" = %s ] && {\n%s\n}\nexec "%s" "$@"\n' "$2" "$4" "$board" > "$work/spoiled"
    chmod +x "$work/spoiled"
    shift 4
    tells "$name" "$reason" --kind "$kind" "$@"
}
# shellcheck disable=SC2016
{
    spoiled "a signal" words "status -6" 'kill -ABRT $$'
    spoiled "another status" journal "status 5" 'exit 5'
    spoiled "a fault of two lines" words "status 1 with " '{ echo "board: x"; echo y; } >&2; exit 1'
    spoiled "an unprintable fault" journal "status 1 with " 'printf "board: \033[31m\n" >&2; exit 1'
    spoiled "a fault and status 0" words "status 0 with " 'echo "board: x" >&2; exit 0'
    spoiled "an output of no command" run "other lines than a report" 'echo x; exit 0'
    before='"'$board'" "$@"'
    spoiled "a trace that is cut off" trace "no (json|svg): " "$before | head -c 200"'; exit "${PIPESTATUS[0]}"' \
        --count 40 --way "without 0"
    spoiled "a journal of another event" journal "[0-9]+ events, and not |[0-9]+ ticks in " \
        "$before | sed '2s/.*/T 1/'"'; exit "${PIPESTATUS[0]}"'
    # What is written goes through a file, and nobody looks whether it comes through.
    through="$before > '$work/through'; got=\$?; cat '$work/through' 2> '$work/lost'; exit \$got"
    for way in "a full output" "without 1" "a pipe that nobody reads"; do
        spoiled "$way that nobody notices" journal "$way: status 0, and 0 as it is" "$through" --way "$way"
    done
    spoiled "a trace on a full output that nobody notices" trace "a full output: status 0, and 0 as it is" "$through" \
        --way "a full output"
    spoiled "a file in the place of a closed stream" asm "without 1: files that have changed" \
        '[ -e /proc/$$/fd/1 ] || echo >> source.s' --way "without 1"
}

# A growth that is refused: to the program that is tried, and to nothing that comes before it.
if have cc "fuzz: a refused growth that ends wrongly"; then
    cat > "$work/spoiled.c" << END
#include <stdio.h>
#include <stdlib.h>
#include <unistd.h>
int main(int count, char **words) {
    if (getenv("REFUSE"))
        return fputs("board: x\n", stderr), 4;
    return count + execv("$board", words);
}
END
    cc -static -w -o "$work/spoiled" "$work/spoiled.c"
    for kind in journal debug; do
        tells "a refused growth that ends wrongly, $kind" "growth [0-9]+ refused: status 4, and [0-3] with " \
            --kind "$kind" --way "a growth refused"
    done
fi

wrong=$(tests/programs/fuzz "$board" --count 200 --samples "$work/samples" 2>&1) && wrong=
verdict "random and spoiled inputs" "$wrong"
summary
