#!/bin/bash
# The test beside a model of the board in Python: tests/programs/boards.sh PROGRAM. On random boards `run` and `debug`
# print what the model says.
. "$(dirname "$0")/check.sh"
if have python3 "random boards beside the model"; then
    wrong=$(tests/model/compare "$board" --boards 200 2>&1) && wrong=
    verdict "random boards beside the model" "$wrong"
fi
summary
