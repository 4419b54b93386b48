# The last command has no newline behind it, and is answered all the same.
_start: nop
