#!/bin/bash
# Compares docs/INSTRUCTIONS.md with tests/data/encodings.table: tests/programs/instructions_doc.sh
#
# From a mnemonic's columns Operands and Encoding its row of the table is put together: the word with the table's
# operands, the bits that have to be as they are, the bits that are ignored. A mnemonic that only one of the two has
# fails too. One line is printed; the status is 1 if anything differs.
set -u
top=$(cd "$(dirname "$0")/../.." && pwd)
document=$top/docs/INSTRUCTIONS.md
table=$top/tests/data/encodings.table
declare -A place=([rs]=21 [rt]=16 [rd]=11 [sa]=6)
declare -A operand=([rs]=1 [rt]=2 [rd]=3 [sa]=4)
declare -A said=()
wrong=""

# complain TEXT: one thing more that is wrong
complain() {
    wrong="$wrong${wrong:+; }$1"
}

# operands LIST: puts the operands of the column into the word
operands() {
    local piece
    IFS=, read -ra pieces <<< "${1// /}"
    for piece in "${pieces[@]}"; do
        case $piece in
            rs | rt | rd | sa) word=$((word | operand[$piece] << place[$piece])) ;;
            immediate | target) word=$((word | 7)) ;;
            'offset(rs)') word=$((word | 1 << 21 | 8)) ;;
            code | hint) ;; # Encoding says where it is
            *) complain "$name: the operand $piece" ;;
        esac
    done
}

# encoding TEXT: puts the code of the column into the word, and reads which fields have to be 0 and which are ignored
encoding() {
    local piece field code
    IFS=';' read -ra pieces <<< "$1"
    read -r field code <<< "${pieces[0]}"
    if ! [[ "$code" =~ ^0x[0-9a-f]{2}$ ]]; then
        complain "$name: the code $code"
        return
    fi
    case $field in
        opcode) word=$((word | code << 26)) ;;
        SPECIAL) word=$((word | code)) ;;
        SPECIAL2) word=$((word | 0x1c << 26 | code)) ;;
        REGIMM) word=$((word | 1 << 26 | code << 16)) ;;
        *) complain "$name: the opcode $field" ;;
    esac
    for piece in "${pieces[@]:1}"; do
        piece=${piece# }
        case $piece in
            'rt = rd, '*) word=$((word | operand[rd] << place[rt])) \
                zeros=$((zeros | 31 << place[rt] | 31 << place[rd])) piece=${piece#rt = rd, } ;;
        esac
        case $piece in
            'sa ignored'*) ignored=$((ignored | 31 << place[sa])) ;;
            'the code is bits 15..6') word=$((word | 5 << 6)) ;;
            'the code is bits 25..6') ;; # the table's code is 0
            'the hint is rt') word=$((word | operand[rt] << place[rt])) ;;
            *' 0')
                for field in ${piece% 0}; do
                    field=${field%,}
                    if [ -n "${place[$field]:-}" ]; then zeros=$((zeros | 31 << place[$field])); \
                        else complain "$name: the field $field"; fi
                done
                ;;
            *) complain "$name: '$piece'" ;;
        esac
    done
}

while IFS='|' read -r _ name arguments code _; do
    [[ "$name" =~ ^\ \`([a-z0-9]+)\`\ $ ]] || continue
    name=${BASH_REMATCH[1]}
    [ -z "${said[$name]:-}" ] || complain "$name twice"
    word=0 zeros=0 ignored=0
    operands "$arguments"
    code=${code# }
    encoding "${code% }"
    said[$name]=$(printf '%08X|%08X|%08X' "$word" "$zeros" "$ignored")
done < "$document"

count=0
while IFS='|' read -r name row; do
    case $name in '' | '#'*) continue ;; esac
    count=$((count + 1))
    if [ -z "${said[$name]:-}" ]; then
        complain "no line for $name"
    elif [ "${said[$name]}" != "$row" ]; then
        complain "$name is ${said[$name]} in the document and $row in the table"
    fi
    unset "said[$name]"
done < "$table"
for name in "${!said[@]}"; do
    complain "$name isn't in the table"
done
[ "$count" -gt 0 ] || complain "no table"

if [ -n "$wrong" ]; then
    echo "failed: instructions_doc: $wrong"
    exit 1
fi
echo "ok: instructions_doc: $count mnemonics"
