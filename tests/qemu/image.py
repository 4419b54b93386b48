"""Where everything lies, the harness round the vectors, and the ELF files for QEMU and for the board.

Both run the same blocks of words at the same addresses, one block a vector. The harness sets the data window, HI, LO
and the registers, and jumps to the block, whose end jumps to FINISH. On QEMU all that there is to see is stored there,
and also where an exception leads. On the board a BREAK lies there, so that each vector ends by an exception, whose
event `board trace` names. It ends task 1, which task 2 starts again.
"""
import struct

RAM = 0x1000000
HANDLER = 0x80000180
REFILL = 0x80000000
QEMU_ENTRY = 0x800003E0
START = 0x80000400
FINISH = 0x80001000
RAISED = 0x80001400
RESTART = 0x80001800
DATA = 0x80008000
SCRATCH = DATA + 0x40
NEXT = DATA + 0x44
OUTPUT_END = DATA + 0x48
BLOCKS = 0x80010000
RECORDS = 0x80200000
OUTPUT = 0x80800000
UART = 0xBFD003F8

# The words of the data window before each vector: every sign of a byte and of a halfword, and a free lock.
WINDOW = (0x807F01FE, 0x55AA00FF, 0x7F80FE01, 0x12F374C5, 0x00000000, 0x8001FFFF, 0x6789ABCD, 0xFEDCBA98)

# A record is the block's address, HI, LO, and the registers 1 to 31.
RECORD = 4 * 34
# What QEMU stores of a vector: the registers 1 to 31, HI, LO, the window, Cause, EPC, BadVAddr.
SEEN = 31 + 2 + len(WINDOW) + 3

K0, K1 = 26, 27
STATUS, CAUSE, EPC, BAD_ADDRESS, KEEP = 12, 13, 14, 8, 30


def lui(rt, value):
    return 0x3C000000 | rt << 16 | value >> 16


def ori(rt, rs, value):
    return 0x34000000 | rs << 21 | rt << 16 | value & 0xFFFF


def li(rt, value):
    """A register gets a value: two words."""
    return [lui(rt, value), ori(rt, rt, value)]


def addiu(rt, rs, value):
    return 0x24000000 | rs << 21 | rt << 16 | value & 0xFFFF


def lw(rt, offset, base):
    return 0x8C000000 | base << 21 | rt << 16 | offset & 0xFFFF


def sw(rt, offset, base):
    return 0xAC000000 | base << 21 | rt << 16 | offset & 0xFFFF


def jump(target):
    """A jump and the nop in its slot."""
    return [0x08000000 | (target >> 2) & 0x03FFFFFF, 0]


def mfc0(rt, register):
    return 0x40000000 | rt << 16 | register << 11


def mtc0(rt, register):
    return 0x40800000 | rt << 16 | register << 11


def start(done):
    """Takes the next record, and jumps to its block; at the end goes on with the words `done`."""
    code = li(1, DATA) + [lw(K1, NEXT - DATA, 1), addiu(K0, K1, RECORD), sw(K0, NEXT - DATA, 1), lw(2, 0, K1)]
    code += [0x14400000 | len(done) + 1, 0] + done
    for place, word in enumerate(WINDOW):
        code += li(2, word) + [sw(2, 4 * place, 1)]
    # An LL and an SC of the scratch word end whatever link there is. (On QEMU an SC that stores nothing ends none.)
    code += [load_store | 1 << 21 | 2 << 16 | SCRATCH - DATA for load_store in (0xC0000000, 0xE0000000)]
    code += [addiu(K0, K1, 0)]
    code += [lw(1, 4, K0), 0x00200011, lw(1, 8, K0), 0x00200013, lw(K1, 0, K0)]
    code += [lw(register, 8 + 4 * register, K0) for register in range(1, 32) if register not in (K0, K1)]
    return code + [0x00000008 | K1 << 21, lw(K0, 8 + 4 * K0, K0)]


def store(raised):
    """On QEMU: stores what is to be seen, with Cause, EPC and BadVAddr where an exception was raised."""
    code = [mtc0(K0, KEEP), lui(K0, DATA), ori(K0, K0, DATA), lw(K0, OUTPUT_END - DATA, K0)]
    code += [sw(register, 4 * (register - 1), K0) for register in range(1, 32) if register != K0]
    code += [mfc0(K1, KEEP), sw(K1, 4 * (K0 - 1), K0)]
    code += [0x00000010 | 1 << 11, sw(1, 4 * 31, K0), 0x00000012 | 1 << 11, sw(1, 4 * 32, K0)]
    code += li(2, DATA)
    for place in range(len(WINDOW)):
        code += [lw(1, 4 * place, 2), sw(1, 4 * (33 + place), K0)]
    for place, register in enumerate((CAUSE, EPC, BAD_ADDRESS)):
        code += [mfc0(1, register) if raised else addiu(1, 0, 0), sw(1, 4 * (33 + len(WINDOW) + place), K0)]
    code += [addiu(K0, K0, 4 * SEEN), sw(K0, OUTPUT_END - DATA, 2), mtc0(0, STATUS)]
    return code + jump(START)


def send():
    """On QEMU: writes all that was stored to the UART, and stays."""
    code = li(4, OUTPUT) + li(5, DATA) + [lw(5, OUTPUT_END - DATA, 5)] + li(6, UART)
    code += [0x90870000, 0xA0C70000, addiu(4, 4, 1), 0x1485FFFC, 0]
    return code + [0x1000FFFF, 0]


def qemu_harness():
    entry = [mtc0(0, STATUS)] + jump(START)
    return {REFILL: jump(RAISED), HANDLER: jump(RAISED), RAISED: store(True), QEMU_ENTRY: entry,
            START: start(send()), FINISH: store(False)}


def board_harness():
    turn_off = [addiu(2, 0, 41), 0x0000000C]
    restart = [addiu(2, 0, 1), addiu(4, 0, 1), 0x0000000C] + jump(RESTART)
    return {START: start(turn_off), FINISH: [0x0000000D], RESTART: restart}


CONFIG = f"""BOARD(1, {RAM:#x});
CRE_TSK(1, {{TA_ACT, 0, {START:#x}, 1, 256, NULL}});
CRE_TSK(2, {{TA_ACT, 0, {RESTART:#x}, 2, 256, NULL}});
"""


def parts(harness, vectors):
    """The words of each address: harness, blocks, records, and where the records and what is stored begin."""
    code = [word for vector in vectors for word in vector.words]
    records = [word for vector in vectors for word in vector.record()] + [0] * (RECORD // 4)
    assert BLOCKS + 4 * len(code) <= RECORDS and RECORDS + 4 * len(records) <= OUTPUT
    assert OUTPUT + 4 * SEEN * len(vectors) < 0x80000000 + RAM
    return {**harness, NEXT: [RECORDS, OUTPUT], BLOCKS: code, RECORDS: records}


def elf(words, entry, order):
    """An ELF file of MIPS32 with a segment for each address; `order` is `>` (big-endian) or `<`."""
    data = {address: struct.pack(f"{order}{len(some)}I", *some) for address, some in sorted(words.items())}
    place = 52 + 32 * len(data)
    head = b"\x7fELF\x01" + (b"\x02" if order == ">" else b"\x01") + b"\x01" + bytes(9)
    head += struct.pack(order + "HHIIIIIHHHHHH", 2, 8, 1, entry, 52, 0, 0x50001000, 52, 32, len(data), 40, 0, 0)
    for address, some in data.items():
        head += struct.pack(order + "IIIIIIII", 1, place, address, address, len(some), len(some), 7, 4)
        place += len(some)
    return head + b"".join(data.values())
