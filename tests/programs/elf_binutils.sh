#!/bin/sh
# Links firmware with GNU as and ld (Debian: binutils-mips-linux-gnu) and reads it with the program bench_elf.
#
#   tests/programs/elf_binutils.sh [PROGRAM]     PROGRAM: bench_elf, by default as `rt ci` leaves it
#
# One line for each case; the status is 1 if one failed. Without the package it prints which tool it wants, and no more.
set -u
top=$(cd "$(dirname "$0")/../.." && pwd)
program=${1:-$top/crates/bench_elf/out/bench_elf}
if ! [ -x "$program" ]; then
  echo "failed: elf_binutils: $program isn't there" >&2
  exit 1
fi
for tool in mips-linux-gnu-as mips-linux-gnu-ld; do
  if ! command -v "$tool" >/dev/null; then
    echo "wants $tool"
    exit 0
  fi
done
case $program in
  /*) ;;
  *) program=$PWD/$program ;;
esac
if ! { work=$(mktemp -d) && cd "$work"; }; then
  echo "failed: elf_binutils: no folder for the files" >&2
  exit 1
fi
trap 'rm -rf "$work"' EXIT
failed=0

# build TOOL ARGUMENTS: runs a tool; where it fails there is nothing to read, and that is the end
build() {
  if ! "$@"; then
    echo "failed: elf_binutils: $*" >&2
    exit 1
  fi
}

# expect NAME STATUS TEXT FILE: what the program says of a file
expect() {
  said=$("$program" "$4" 2>&1)
  status=$?
  if [ "$status" = "$2" ] && [ "$said" = "$3" ]; then
    echo "ok: elf_binutils: $1"
  else
    echo "failed: elf_binutils: $1: status $status, said:" >&2
    echo "$said" >&2
    failed=1
  fi
}

image='entry 80000000
segment 80000000 112 bytes sum 1042'
symbols='symbol 80000000 _start
symbol 80000060 count
symbol 80000050 value'
build mips-linux-gnu-as -EB -mips32 -o big.o "$top/examples/firmware.s"
build mips-linux-gnu-as -EL -mips32 -o little.o "$top/examples/firmware.s"
build mips-linux-gnu-ld -EB -n -z noexecstack -T "$top/examples/firmware.ld" -o small.elf big.o
build mips-linux-gnu-ld -EB -T "$top/examples/firmware.ld" -o pages.elf big.o
build mips-linux-gnu-ld -EB -s -T "$top/examples/firmware.ld" -o stripped.elf big.o
build mips-linux-gnu-ld -EL -n -z noexecstack -T "$top/examples/firmware.ld" -o little.elf little.o
build mips-linux-gnu-ld -EL -T "$top/examples/firmware.ld" -o little_pages.elf little.o
build mips-linux-gnu-ld -EB -e _start -Ttext=0x80000000 -o default.elf big.o

expect 'linked by the script, with a PT_GNU_STACK' 0 "$image
$symbols" small.elf
expect 'linked by the script, with segments from a page on' 0 "$image
$symbols" pages.elf
expect 'stripped' 0 "$image" stripped.elf
expect 'little-endian' 0 "little-endian
$image
$symbols" little.elf
expect 'little-endian, with segments from a page on' 0 "little-endian
$image
$symbols" little_pages.elf
# The byte order of a file is that of its fields: with the other one in its place its type is another.
other() {
  { head -c 5 "$1"; printf '%b' "$2"; tail -c +7 "$1"; } > "$3"
}
wrong='offset 16: a value that isn'"'"'t supported; wanted is a static ELF32 executable for MIPS'
other small.elf '\0001' small_as_little.elf
other little.elf '\0002' little_as_big.elf
expect 'big-endian, said to be little-endian' 1 "Error: small_as_little.elf: $wrong" small_as_little.elf
expect 'little-endian, said to be big-endian' 1 "Error: little_as_big.elf: $wrong" little_as_big.elf
expect 'not linked' 1 "Error: big.o: $wrong" big.o
expect 'not linked, little-endian' 1 "Error: little.o: $wrong" little.o
case $("$program" default.elf 2>&1) in
  *"isn't within 0x80000000 to 0x80ffffff") echo "ok: elf_binutils: linked without the script: outside" ;;
  *) echo "failed: elf_binutils: linked without the script" >&2; failed=1 ;;
esac
exit "$failed"
