#!/usr/bin/env python3
"""The benchmark in C, bench.elf, for those that measure with it.

  tests/data/bench/program.py PROCESSORS ROUNDS   prints a configuration for it: 1 to 4 processors, up to 16,777,215 rounds

A task on each processor does its rounds on data of its own, and writes a checksum; the last one turns the board off.
"""
import os
import re
import shutil
import struct
import subprocess
import sys

PATH = os.path.join(os.path.dirname(os.path.abspath(__file__)), "bench.elf")
MOST = 0xFFFFFF
# Where what calls the rounds lies on QEMU, and its stack, in the 16 MiB of RAM that its machine has there.
CALLER = 0x80100000
STACK = 0x80200000
UART = 0xBFD003F8


def configuration(processors, rounds):
    """A configuration with a task for each processor, which does so many rounds."""
    tasks = [f"CLASS(TCL_{cpu}) {{ CRE_TSK({cpu}, {{TA_ACT, {processors << 24 | rounds:#x}, task_{cpu}, 1, 2048, NULL}});"
             " }\n" for cpu in range(1, processors + 1)]
    return f"BOARD({processors}, 0x20000);\nCRE_SEM(1, {{TA_TFIFO, 1, 1}});\n{''.join(tasks)}"


class Image:
    """What is in bench.elf."""

    def __init__(self):
        with open(PATH, "rb") as file:
            self.bytes = file.read()
        at, = struct.unpack_from(">I", self.bytes, 28)
        self.offset, self.address, _, self.filled, self.size = struct.unpack_from(">5I", self.bytes, at + 4)
        self.symbols = self.symbols_found()

    def section(self, number):
        at, = struct.unpack_from(">I", self.bytes, 32)
        return struct.unpack_from(">2I", self.bytes, at + 40 * number + 16)

    def symbols_found(self):
        sections, = struct.unpack_from(">H", self.bytes, 48)
        kinds = {it: struct.unpack_from(">I", self.bytes, struct.unpack_from(">I", self.bytes, 32)[0] + 40 * it + 4)[0]
                 for it in range(sections)}
        table = next(it for it, kind in kinds.items() if kind == 2)
        (start, size), (names, _) = self.section(table), self.section(table + 1)
        found = {}
        for at in range(start, start + size, 16):
            name, value = struct.unpack_from(">2I", self.bytes, at)
            found[self.bytes[names + name:self.bytes.index(b"\0", names + name)].decode()] = value
        return found

    def for_qemu(self, rounds):
        """An ELF file for QEMU's machine `mipssim`: the same bytes at the same addresses, and what calls the rounds
        there, sends the four bytes of their checksum by the UART, and stays."""
        works, function = self.symbols["works"], self.symbols["rounds_of"]
        code = [0x3C1D0000 | STACK >> 16, 0x3C040000 | works >> 16, 0x34840000 | works & 0xFFFF,
                0x3C050000 | rounds >> 16, 0x34A50000 | rounds & 0xFFFF, 0x0C000000 | function >> 2 & 0x3FFFFFF, 0,
                0x3C080000 | UART >> 16, 0x35080000 | UART & 0xFFFF]
        code += [word for shift in (24, 16, 8, 0) for word in (0x00024802 | shift << 6, 0xA1090000)] + [0x1000FFFF, 0]
        caller = struct.pack(f">{len(code)}I", *code)
        loaded = self.bytes[self.offset:self.offset + self.filled]
        head = b"\x7fELF\x01\x02\x01" + bytes(9)
        head += struct.pack(">HHIIIIIHHHHHH", 2, 8, 1, CALLER, 52, 0, 0x50001000, 52, 32, 2, 40, 0, 0)
        head += struct.pack(">8I", 1, 116, self.address, self.address, self.filled, self.size, 7, 4)
        head += struct.pack(">8I", 1, 116 + self.filled, CALLER, CALLER, len(caller), len(caller), 5, 4)
        return head + loaded + caller


def machine_instructions(command, **more):
    """How many instructions of this machine a command takes, as valgrind's callgrind counts them; nothing where it
    isn't installed."""
    if shutil.which("valgrind") is None:
        return None
    ran = subprocess.run(["valgrind", "--tool=callgrind", "--callgrind-out-file=/dev/null", *command], check=True,
                         stdout=subprocess.DEVNULL, stderr=subprocess.PIPE, **more)
    return int(re.search(rb"Collected : (\d+)", ran.stderr)[1])


def main(words):
    if len(words) != 2 or not all(re.fullmatch(r"\d{1,8}", it) for it in words) or \
            not 1 <= int(words[0]) <= 4 or int(words[1]) > MOST:
        sys.exit(__doc__)
    print(configuration(int(words[0]), int(words[1])), end="")


if __name__ == "__main__":
    main(sys.argv[1:])
