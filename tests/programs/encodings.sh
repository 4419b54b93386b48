#!/bin/bash
# Which words are instructions, seen through `board words`: tests/programs/encodings.sh PROGRAM. encodings.table has a
# line for each mnemonic, reserved.words codes that no mnemonic has.
. "$(dirname "$0")/check.sh"

# ran WORD: what one step over a word prints, or the fault.
ran() {
    echo "$1" | "$board" words 1 2>&1
}

# is_reserved WORD: whether one step over it raises the exception of a reserved instruction, and nothing else happens.
is_reserved() {
    [ "$(ran "$1")" = $'pc 80000000\n$29 80010000\nfault 10 80000000 0' ]
}

# Each mnemonic: its word stands for an instruction; each field of zeros has to be zero; an ignored field changes
# nothing.
while IFS='|' read -r name word zeros ignored; do
    case $name in '' | '#'*) continue ;; esac
    plain=$(ran "$word")
    wrong=""
    [[ "$plain" == *"fault 10 "* || "$plain" != pc* ]] && wrong="; $word is reserved"
    for ((bit = 0; bit < 32; bit++)); do
        other=$(printf '%08X' $((0x$word ^ (1 << bit))))
        if (((0x$zeros >> bit) & 1)); then
            is_reserved "$other" || wrong="$wrong; $other isn't reserved"
        fi
        if (((0x$ignored >> bit) & 1)); then
            [ "$(ran "$other")" = "$plain" ] || wrong="$wrong; $other does something else"
        fi
    done
    verdict "encoding of $name" "$wrong"
done < tests/data/encodings.table

# Each mnemonic of the code has a line in the table of encodings, and no other has.
mnemonics=$(sed -n '/^pub enum .*Op {/,/^}/s/^    \([A-Z][a-z]*\) = 0x[0-9a-f]*,$/\1/p' \
    crates/brd_isa/src/instruction.rt |
    tr 'A-Z' 'a-z'; printf '%s\n' mul jr jalr syscall break sync lui pref)
table=$(grep -v '^#' tests/data/encodings.table | cut -d'|' -f1)
verdict "the mnemonics of the code and of encodings.table" \
    "$(diff <(sort <<< "$mnemonics") <(sort <<< "$table"))"

# Codes that no mnemonic has.
wrong=""
while read -r word; do
    is_reserved "$word" || wrong="$wrong $word"
done < tests/data/reserved.words
verdict "reserved.words" "${wrong:+not reserved:$wrong}"

# The document of the instructions beside the table.
check_script "docs/INSTRUCTIONS.md" tests/programs/instructions_doc.sh

# The document of the service calls beside the definitions.
check_script "docs/KERNEL.md" tests/programs/services_doc.sh

summary
