#!/bin/bash
# Compares the table of service calls of docs/KERNEL.md with the definitions: numbers, names, places, arguments and
# refusals have to be those of brd_sysgate's table and of brd_kernel's rows. Run by tests/gate/commands.
set -u
cd "$(dirname "$0")/../.." || exit 2
gate=crates/brd_sysgate/specs/Gate.antt
rows=crates/brd_kernel/specs/Services.antt

# a line a call: number|name|place|how many arguments
of_gate() {
    sed -n 's/^ *∷* *service \([0-9]*\) (codes "\([a-z_]*\)") \([0-9]\) place\.\([A-Za-z]*\) .*$/\1|\2|\4|\3/p' "$gate"
}

of_doc() {
    sed -n 's/^| \([0-9]*\) | `\([a-z_]*\)` | \([^|]*\)| \([^|]*\) | \([^|]*\)| .*$/\1|\2|\3|\4/p' docs/KERNEL.md |
        while IFS='|' read -r number name arguments place; do
            case $place in
                task) place=Task ;;
                "locked task") place=LockedTask ;;
                "not holding") place=NotHolding ;;
                waiting) place=Waiting ;;
                "on task") place=OnTask ;;
                handler) place=Handler ;;
                "locked handler") place=LockedHandler ;;
                "handler not holding") place=NotHoldingHandler ;;
                anywhere) place=Anywhere ;;
            esac
            words=$(tr -d ' ' <<< "$arguments")
            count=0
            [ -n "$words" ] && count=$(($(tr -cd ',' <<< "$words" | wc -c) + 1))
            echo "$number|$name|$place|$count"
        done
}

# a line a call: number|name|the kinds of refusal that its row fills in
refusals_of_rows() {
    awk '
        function row(    i) { for (i = 1; i <= calls; i++) print number[i] "|" name[i] "|" kinds }
        /^-- [1-9][0-9]* [a-z]+_[a-z]+/ {
            row(); calls = 0; kinds = ""; text = $0; sub(/^-- /, "", text); sub(/\. .*/, "", text); sub(/\.$/, "", text)
            while (match(text, /[1-9][0-9]* [a-z]+_[a-z]+/)) {
                split(substr(text, RSTART, RLENGTH), word, " "); text = substr(text, RSTART + RLENGTH)
                calls++; number[calls] = word[1]; name[calls] = word[2]
            }
        }
        /^-- The rows by calls/ { row(); exit }
        /bad_par =/ && calls { kinds = kinds " PAR" }
        /iluse =/ && calls { kinds = kinds " ILUSE" }
        /obj =/ && calls { kinds = kinds " OBJ" }
        /qovr =/ && calls { kinds = kinds " QOVR" }
    ' "$rows" | sed 's/| /|/'
}

refusals_of_doc() {
    sed -n 's/^| \([0-9]*\) | `\([a-z_]*\)` | [^|]*| [^|]* | \([^|]*\)| .*$/\1|\2|\3/p' docs/KERNEL.md | sed 's/ *$//'
}

status=0
diff <(of_gate) <(of_doc) || status=1
diff <(refusals_of_rows | sort -n) <(refusals_of_doc | sort -n) || status=1
if [ $status -eq 0 ]; then
    echo "ok: services_doc: $(of_doc | wc -l) calls"
else
    echo "FAILED: services_doc: docs/KERNEL.md (>) and the definitions (<) differ"
fi
exit $status
