#!/bin/sh
# Assembles one source with the board's assembler and with GNU as and ld (Debian: binutils-mips-linux-gnu), in both byte
# orders, and compares the bytes. It is the source of crates/test_input/src/tests/asm/every.rt, of every mnemonic,
# one-word form and directive.
#
#   tests/programs/asm_binutils.sh [BOARD]       BOARD: the program, by default build/board
#
# One line for each byte order; the status is 1 if the bytes differ. Without the package it prints which tool it wants,
# and no more.
set -u
top=$(cd "$(dirname "$0")/../.." && pwd)
board=${1:-$top/build/board}
for tool in mips-linux-gnu-as mips-linux-gnu-ld mips-linux-gnu-objcopy; do
  if ! command -v "$tool" >/dev/null; then
    echo "wants $tool"
    exit 0
  fi
done
work=$(mktemp -d) || exit 1
trap 'rm -rf "$work"' EXIT

fail() {
  echo "failed: asm_binutils: $1" >&2
  exit 1
}

# The rows of the constant SOURCE, without their ends and escapes.
sed -n '/^pub const SOURCE: &str = "\\$/,/";$/p' "$top/crates/test_input/src/tests/asm/every.rt" |
  sed -e 1d -e 's/\\n\\$//' -e 's/\\n";$//' -e 's/\\"/"/g' -e 's/\\\\/\\/g' > "$work/every.s"
lines=$(wc -l < "$work/every.s")
[ "$lines" -gt 100 ] || fail "no source in every.rt"

# What GNU as wants written in another way.
cat > "$work/gnu.sed" <<'END'
# It knows no comments that begin with //.
s|//.*||
# Its div and divu with two operands are more than one instruction; with $0 in front they are the instruction.
s/^(divu?) /\1 $0, /
# Its move is an or.
s/^move (.*)$/addu \1, $0/
# It puts the code of break into the upper ten bits of the field, and a second one into the lower ten.
s/^break ([0-9]+)$/break 0, \1/
# It measures a branch to a number from the start of the section, which is at `first`.
s/^(bgtz .*), 0x80000124$/\1, first+0x124/
# Its .org takes an offset in the section.
s/^\.org 0x80000800$/.org 0x800/
END
sed -E -f "$work/gnu.sed" "$work/every.s" > "$work/gnu.s"

# number AT BYTES: a number of the object file, which is in the byte order of $order
number() {
  bytes=$(od -An -v -tx1 -w1 -j "$1" -N "$2" "$work/object" | tr -d ' ')
  if [ "$order" = little ]; then
    bytes=$(echo "$bytes" | tac)
  fi
  echo $((0x$(echo "$bytes" | tr -d '\n')))
}

# compare ORDER FLAG: assembles in a byte order, which is a flag of the GNU tools
compare() {
  order=$1
  mips-linux-gnu-as "$2" -mips32 -mabi=32 -o "$work/gnu.o" "$work/gnu.s" || fail "$order: as"
  mips-linux-gnu-ld "$2" -e _start -Ttext 0x80000000 -o "$work/gnu.elf" "$work/gnu.o" || fail "$order: ld"
  mips-linux-gnu-objcopy -O binary -j .text "$work/gnu.elf" "$work/gnu" || fail "$order: objcopy"

  { echo ".byteorder $order"; cat "$work/every.s"; } > "$work/source.s"
  "$board" asm "$work/source.s" "$work/object" || fail "$order: board asm"
  # The segments at their addresses from 0x80000000 on, with zeros in the gaps, as the section of GNU as has them.
  segments=$(number 44 2)
  [ "$segments" = 2 ] || fail "$order: $segments segments, not 2"
  : > "$work/board"
  for header in 52 84; do
    gap=$(($(number $((header + 8)) 4) - 0x80000000 - $(wc -c < "$work/board")))
    head -c "$gap" /dev/zero >> "$work/board"
    tail -c +$(($(number $((header + 4)) 4) + 1)) "$work/object" |
        head -c "$(number $((header + 16)) 4)" >> "$work/board"
  done
  size=$(wc -c < "$work/board")
  # The linker may put zeros after the section's end.
  head -c "$size" "$work/gnu" > "$work/wanted"
  cmp "$work/board" "$work/wanted" || fail "$order: other bytes than GNU as"
  [ -z "$(tail -c +$((size + 1)) "$work/gnu" | tr -d '\000')" ] || fail "$order: GNU as has more bytes"
  echo "ok: asm_binutils: $order-endian: $lines lines, $size bytes, as GNU as and ld make them"
}
compare big -EB
compare little -EL

# Without .byteorder the source is big-endian.
"$board" asm "$work/every.s" "$work/silent" || fail "board asm without .byteorder"
{ echo ".byteorder big"; cat "$work/every.s"; } > "$work/source.s"
"$board" asm "$work/source.s" "$work/object" || fail "board asm with .byteorder big"
cmp "$work/silent" "$work/object" || fail "another file without .byteorder"
