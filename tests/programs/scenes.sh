#!/bin/bash
# The scenes: tests/programs/scenes.sh PROGRAM. tests/programs/scene compares each of tests/scenes and of examples/ with
# its goldens, and so those of crates/rows_board that tests/programs/rows_scenes makes of its rows.
. "$(dirname "$0")/check.sh"

have python3 "the scenes" || { summary; exit; }
count_in "the scenes" tests/programs/scene "$board"
mkdir "$work/rows"
wrong=$(tests/programs/rows_scenes "$work/rows" 2>&1) || wrong=${wrong:-it failed}
verdict "the scenes of crates/rows_board" "$wrong"
count_in "the scenes of crates/rows_board" tests/programs/scene "$board" --in "$work/rows"

# A folder of a journal and a configuration elsewhere is a scene that nobody looks at.
others=$(find tests -path tests/scenes -prune -o -name config.cfg -print | xargs -r dirname |
    while read -r folder; do [ ! -e "$folder/journal" ] || echo "$folder"; done)
verdict "no scene lies outside of tests/scenes" "$others"

summary
