"""What the board answers where QEMU answers something else: a rule for each row `differs` of differences.table.

The rules are worked out from docs/INSTRUCTIONS.md, docs/MACHINE.md and docs/KERNEL.md, and not from what the program
prints.
"""
import os

import image

TABLE = os.path.join(os.path.dirname(os.path.abspath(__file__)), "differences.table")
E_RSFN = -10 & 0xFFFFFFFF


def table(path=TABLE):
    """The rows: name, and whether the board `differs` from QEMU there or `agrees` with it."""
    with open(path, encoding="utf-8") as file:
        rows = [[part.strip() for part in line.split("|")] for line in file if line.strip() and line[0] != "#"]
    wrong = [row[0] for row in rows if len(row) != 5 or row[1] not in ("differs", "agrees")]
    if wrong or {name for name, kind, *_ in rows if kind == "differs"} != set(RULES):
        raise SystemExit(f"differences.table doesn't fit the rules of differences.py; malformed rows: {wrong}")
    return {name: kind for name, kind, *_ in rows}


def changed(vector, values):
    """Of these values those that the vector doesn't begin with."""
    began = {key if isinstance(key, str) else f"${key}": value for key, value in vector.started().items()}
    began.update({f"@{n}": value for n, value in enumerate(image.WINDOW)})
    return {key: value for key, value in values.items() if value != began.get(key)}


def raises(code, bad=None):
    """The rule of an exception by the vector's first word, or by the second in the slot of the first, a branch."""
    def rule(vector):
        link = links(vector.words[0])
        answer = {f"${link}": vector.address + 8} if link else {}
        answer.update({"code": code, "epc": vector.address, "bd": int(is_branch(vector.words[0]))})
        return {**answer, "bad": bad(vector)} if bad else answer
    return rule


def is_branch(word):
    opcode, function, kind = word >> 26, word & 63, word >> 16 & 31
    return opcode in (2, 3, *range(4, 8), *range(20, 24)) or opcode == 0 and function in (8, 9) \
        or opcode == 1 and kind & 12 == 0


def links(word):
    """The register that a call gives the link, 0 for any other word."""
    opcode = word >> 26
    if opcode == 0 and word & 63 == 9:
        return word >> 11 & 31
    return 31 if opcode == 3 or opcode == 1 and word >> 16 & 28 == 16 else 0


def reserved(vector):
    """RI by the vector's first word, whatever it looks like, or by that in the slot of the BEQ before it."""
    return {"code": 10, "epc": vector.address, "bd": int(vector.words[0] == 0x10000001)}


def address(vector):
    """The address of an access by register 1, whose word is the first or the second."""
    word = vector.words[1] if is_branch(vector.words[0]) else vector.words[0]
    offset = (word & 0xFFFF ^ 0x8000) - 0x8000
    return (vector.started()[1] + offset) & 0xFFFFFFFF


def no_divisor(vector):
    return changed(vector, {"hi": vector.started()[1], "lo": 0xFFFFFFFF})


def fetched(vector):
    """IBE where register 1 leads."""
    return {"code": 6, "epc": vector.started()[1], "bd": 0}


def linked_word(vector):
    """Which word of the window the LL at the vector's beginning links."""
    return (vector.words[0] & 0xFFFF) // 4


def stores(vector):
    """LL loads into register 3, and SC stores register 4 there all the same."""
    place = linked_word(vector)
    return changed(vector, {"$3": image.WINDOW[place], "$4": 1, f"@{place}": vector.started()[4]})


def link_gone(vector):
    """LL loads into register 3, and no SC stores."""
    return changed(vector, {"$3": image.WINDOW[linked_word(vector)], "$4": 0})


def jumps(vector):
    """The hint is ignored: JR goes to FINISH, JALR too, with its link."""
    link = links(vector.words[0])
    return {f"${link}": vector.address + 8} if link else {}


RULES = {
    "divisor 0": no_divisor,
    "syscall": lambda vector: {"$2": E_RSFN},
    "field of zeros": reserved,
    "CLZ and CLO": reserved,
    "coprocessor": reserved,
    "MDMX and PMON": reserved,
    "hint of a jump": jumps,
    "SC at an unaligned address": raises(5, address),
    "SC outside RAM": raises(7),
    "access with a TLB": raises(7),
    "fetch with a TLB": fetched,
    "store into the word": stores,
    "SC after one that failed": link_gone,
}
