#!/bin/bash
# The documents: the commands that they show, a test for each document; their links; what they name; the ways through
# the code and the picture of the crates of docs/dev/ARCHITECTURE.md.
# tests/programs/documents.sh PROGRAM
. "$(dirname "$0")/check.sh"

have python3 "the documents" || { summary; exit; }
check_script "the walks" tests/programs/walks
check_script "the picture of the crates" tests/programs/layers --check
check_script "the links" tests/programs/links
check_script "the names of files, laws and code" tests/programs/names
# The table of what the gate costs has a row for each crate, and for no other.
rows() {
    sed -nE 's/^\| ([a-z0-9]+_[a-z0-9_]+) \|.*/\1/p' tests/gate/gate.table | sort
}
crates() {
    sed -nE 's/^([a-z0-9_]+)[^:#]*:.*/\1/p' crates.txt | sort
}
verdict "each crate has a row in tests/gate/gate.table" "$(
    [ -n "$(crates)" ] || echo "crates.txt has no crates"
    comm -23 <(crates) <(rows) | xargs -r echo "no row of"
    comm -13 <(crates) <(rows) | xargs -r echo "no crate, but a row of")"

keep_objects
count_in "the commands of the documents" tests/programs/documents "$board"

# Which C library README.md says that the program of dist/ wants.
wanted=$(gunzip -c dist/board.gz | grep -aoE 'GLIBC_[0-9]+(\.[0-9]+)+' | sort -V | tail -n 1)
grep -qF "GNU C library ${wanted#GLIBC_} or later" README.md && wanted=
verdict "the C library in README.md" "${wanted:+the program wants $wanted}"

summary
