#!/bin/bash
# The instructions beside the answers of QEMU that are kept: tests/programs/qemu.sh PROGRAM.
. "$(dirname "$0")/check.sh"
if have python3 "the instructions beside QEMU's answers"; then
    check_script "the instructions beside QEMU's answers" tests/qemu/compare "$board"
fi
summary
