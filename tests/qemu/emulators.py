"""Runs the vectors on QEMU and on the board. Each answers with what is to be seen after each vector.

An answer is a dictionary of what a vector changed: `$n`, `hi`, `lo` (with the value), `@n` (word n of the data window);
and of an exception `code`, `epc`, `bd`, and for an address error `bad`, the address.
"""
import os
import re
import struct
import subprocess
import threading

import image

QEMU = {">": "qemu-system-mips", "<": "qemu-system-mipsel"}
SECONDS = 120
CODES = {"AdEL": 4, "AdES": 5, "IBE": 6, "DBE": 7, "Bp": 9, "RI": 10, "Ov": 12, "Tr": 13}
FAULT = re.compile(r"^ *(\d+) 1 +task 1 +([0-9a-f]{8}) +(AdEL|AdES|IBE|DBE|Bp|RI|Ov|Tr)\b(.*)$")


def changes(vector, registers, window):
    """What differs from the vector's beginning; `registers` by number, with hi and lo."""
    began = vector.started()
    answer = {key if isinstance(key, str) else f"${key}": registers[key]
              for key in [*range(1, 32), "hi", "lo"] if registers[key] != began[key]}
    answer.update({f"@{n}": word for n, word in enumerate(window) if word != image.WINDOW[n]})
    return answer


def exception(code, epc, slot, bad):
    answer = {"code": code, "epc": epc, "bd": int(slot)}
    return {**answer, "bad": bad} if code in (4, 5) else answer


def on_qemu(vectors, order, folder):
    path = os.path.join(folder, "vectors.qemu")
    with open(path, "wb") as file:
        file.write(image.elf(image.parts(image.qemu_harness(), vectors), image.QEMU_ENTRY, order))
    data = sent_by_qemu(QEMU[order], path, 4 * image.SEEN * len(vectors))
    words = struct.unpack(f"{order}{len(data) // 4}I", data)
    return [of_qemu(vector, words[n * image.SEEN:(n + 1) * image.SEEN]) for n, vector in enumerate(vectors)]


def sent_by_qemu(qemu, path, size):
    """What the program sends by the UART: so many bytes, and then QEMU, which doesn't end by itself, is ended."""
    command = [qemu, "-M", "mipssim", "-cpu", "4Kc", "-m", str(image.RAM >> 20), "-nic", "none", "-display", "none",
               "-monitor", "none", "-serial", "stdio", "-kernel", path]
    with subprocess.Popen(command, stdin=subprocess.DEVNULL, stdout=subprocess.PIPE) as process:
        timer = threading.Timer(SECONDS, process.kill)
        timer.start()
        data = process.stdout.read(size)
        timer.cancel()
        process.kill()
    if len(data) != size:
        raise SystemExit(f"{qemu} sent {len(data)} bytes, wanted {size}")
    return data


def of_qemu(vector, words):
    registers = {n + 1: word for n, word in enumerate(words[:31])}
    registers.update({"hi": words[31], "lo": words[32]})
    cause, epc, bad = words[-3:]
    answer = changes(vector, registers, words[33:-3])
    if cause or epc:
        answer.update(exception(cause >> 2 & 31, epc, cause >> 31, bad))
    return answer


def on_board(program, vectors, order, folder):
    paths = [os.path.join(folder, name) for name in ("vectors.elf", "vectors.cfg", "vectors.journal")]
    name = {">": "big", "<": "little"}[order]
    contents = (image.elf(image.parts(image.board_harness(), vectors), image.START, order), image.CONFIG.encode(),
                f"board-journal 2 {name}\nS 1 {200 * len(vectors)}\n".encode())
    for path, content in zip(paths, contents):
        with open(path, "wb") as file:
            file.write(content)
    ends = list(faults(said(program, "trace", paths, "")))
    answers = shown(program, paths, vectors, order, ends)
    if list(answers) != list(range(len(vectors))):
        raise SystemExit(f"the board ended {len(answers)} vectors of {len(vectors)}, or in another order")
    return list(answers.values())


def said(program, command, paths, typed):
    done = subprocess.run([program, command, *paths], input=typed.encode(), stdout=subprocess.PIPE, check=False)
    if done.returncode:
        raise SystemExit(f"{program} {command} ended with status {done.returncode}")
    return done.stdout.decode().splitlines()


def faults(lines):
    """Each exception of task 1 in the trace: the position of its event, and what there is to say of it."""
    for line in lines:
        match = FAULT.match(line)
        if match:
            position, where, name, text = match.groups()
            slot = re.search(r"in the delay slot of ([0-9a-f]{8})", text)
            address = re.match(r": (?:load from|store to|fetch from) ([0-9a-f]{8})", text)
            yield int(position), exception(CODES[name], int(slot.group(1) if slot else where, 16), slot is not None,
                                           int(address.group(1), 16) if address else None)


def shown(program, paths, vectors, order, ends):
    """The answers, by vector: `board debug` shows the board where each exception is raised. The BREAK at FINISH is
    none of the vector's."""
    look = "regs 1\n\n" + "".join(f"mem {address:08x}\n" for address in (
        *range(image.DATA, image.DATA + 4 * len(image.WINDOW)), *range(image.NEXT, image.NEXT + 4)))
    lines = iter(said(program, "debug", paths, "".join(f"goto {position}\n{look}" for position, _ in ends)))
    answers = {}
    for _, raised in ends:
        next(lines)
        number, answer = looked(vectors, lines, order)
        answers[number] = answer if raised["epc"] == image.FINISH else {**answer, **raised}
    return answers


def looked(vectors, lines, order):
    """What the debugger shows at a position: the vector's number, and what it has changed."""
    registers = {**{n: 0 for n in range(1, 32)}, "hi": 0, "lo": 0}
    for line in iter(lines.__next__, "unknown"):
        key, value = line.split(" ")
        if key != "pc":
            registers[int(key[1:]) if key[0] == "$" else key] = int(value, 16)
    data = bytes.fromhex("".join(next(lines) for _ in range(4 * len(image.WINDOW) + 4)))
    *window, record = struct.unpack(f"{order}{len(data) // 4}I", data)
    number = (record - image.RECORDS) // image.RECORD - 1
    if not 0 <= number < len(vectors):
        raise SystemExit(f"the board takes {record:08x} for a vector's record")
    return number, changes(vectors[number], registers, window)
