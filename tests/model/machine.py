"""The machine of the model: RAM with the links of LL and SC, contexts, and the table of instructions.

MD00086 (MIPS32 Architecture for Programmers, volume II) says what each instruction does. Where it leaves a choice, the
text says 'own choice'.
"""
import collections
import functools

WORD = 0xFFFFFFFF
RAM_START = 0x80000000
# The codes of exceptions, as MD00090 numbers them in the register Cause.
ADEL, ADES, IBE, DBE, BP, RI, OV, TR = 4, 5, 6, 7, 9, 10, 12, 13


class Fault(Exception):
    """An instruction raises an exception, and changes nothing (but that an SC has ended its processor's link)."""

    def __init__(self, code):
        super().__init__(code)
        self.code = code


def signed(word):
    return word - 0x100000000 if word & 0x80000000 else word


class Memory:
    """RAM from 0x80000000 on, in which the bytes of words lie in an order, "big" or "little"; and for each processor
    that has a link the word that it is linked to."""

    def __init__(self, size, order, counts):
        self.bytes, self.order, self.links, self.counts = bytearray(size), order, {}, counts
        # The addresses of bytes that have become others, for who watches them.
        self.changed = []

    def index(self, address, size, unaligned, outside):
        """Where an address lies in RAM. Alignment is tested first (own choice)."""
        if address % size:
            raise Fault(unaligned)
        if not 0 <= address - RAM_START < len(self.bytes):
            raise Fault(outside)
        return address - RAM_START

    def load(self, address, size, outside=DBE):
        at = self.index(address, size, ADEL, outside)
        return int.from_bytes(self.bytes[at:at + size], self.order)

    def data(self, word, size=4):
        """The bytes of the low bits of a word, as they lie."""
        return (word & (1 << 8 * size) - 1).to_bytes(size, self.order)

    def before(self, address):
        """How many bytes of the word with this address are more significant than the byte there."""
        return address & 3 if self.order == "big" else 3 - (address & 3)

    def store(self, processor, address, data):
        """Writes bytes; ends each link of another processor into their 16 bytes (the size is an own choice)."""
        at = address - RAM_START
        self.changed += [address + k for k, byte in enumerate(data) if self.bytes[at + k] != byte]
        self.bytes[at:at + len(data)] = data
        for other, linked in list(self.links.items()):
            if other != processor and linked // 16 == address // 16:
                del self.links[other]
                self.counts["link: ended by the store of another"] += 1


class Context:
    """Registers, HI, LO, the next instruction, the one after it, and whether the next one is in a delay slot."""
    __slots__ = ("registers", "hi", "lo", "pc", "npc", "slot")

    def __init__(self, address, argument, stack=0):
        self.registers = [0] * 32
        self.registers[4], self.registers[29] = argument, stack
        self.hi = self.lo = 0
        self.pc, self.npc, self.slot = address, (address + 4) & WORD, False

    def set(self, register, value):
        """Gives a register the low 32 bits of a value; register 0 stays 0."""
        if register:
            self.registers[register] = value & WORD

    def go_on(self):
        self.pc, self.npc, self.slot = self.npc, (self.npc + 4) & WORD, False

    def branch(self, target):
        """Goes to a target after the slot."""
        self.pc, self.npc, self.slot = self.npc, target & WORD, True

    def lines(self):
        """What the program prints of registers."""
        named = [(f"${k}", value) for k, value in enumerate(self.registers)] + [("hi", self.hi), ("lo", self.lo)]
        return [f"pc {self.pc:08x}"] + [f"{name} {value:08x}" for name, value in named if value]


# What rows of the table are made of. A meaning takes the instruction's fields, the context, the memory and the
# processor's number, and answers True where it has gone on by itself.

def to_rd(value):
    """rd becomes a value of the registers rs and rt."""
    def meaning(it, context, memory, processor):
        context.set(it.rd, value(it, context.registers[it.rs], context.registers[it.rt]))
    return meaning


def to_rt(value):
    """rt becomes a value of the register rs and the signed immediate."""
    def meaning(it, context, memory, processor):
        context.set(it.rt, value(context.registers[it.rs], it.immediate))
    return meaning


def move_if(condition):
    """MOVZ, MOVN: rd becomes rs where rt meets a condition."""
    def meaning(it, context, memory, processor):
        if condition(context.registers[it.rt]):
            context.set(it.rd, context.registers[it.rs])
    return meaning


def to_hi_lo(value):
    """HI and LO become the two words of a value of rs, rt and the 64 bits that HI and LO hold."""
    def meaning(it, context, memory, processor):
        result = value(context.registers[it.rs], context.registers[it.rt], context.hi << 32 | context.lo)
        context.hi, context.lo = result >> 32 & WORD, result & WORD
    return meaning


def quotient(left, right):
    """Toward zero, with its remainder above it; by 0 all ones, and the dividend (own choice)."""
    if right == 0:
        return (left & WORD) << 32 | WORD
    size = abs(left) // abs(right)
    result = size if (left < 0) == (right < 0) else -size
    return (left - result * right & WORD) << 32 | result & WORD


def trap(condition, immediate=False):
    """An immediate is sign-extended, also where the comparison is without sign."""
    def meaning(it, context, memory, processor):
        if condition(context.registers[it.rs], it.immediate & WORD if immediate else context.registers[it.rt]):
            raise Fault(TR)
    return meaning


def not_in_a_slot(context):
    """A branch or jump in a delay slot raises RI (UNPREDICTABLE in MD00086; own choice)."""
    if context.slot:
        raise Fault(RI)


def branch(condition, likely=False, links=False):
    """A branch not taken has a slot too; a branch-likely not taken leaves it out. A link is written in each case."""
    def meaning(it, context, memory, processor):
        not_in_a_slot(context)
        taken = condition(context.registers[it.rs], context.registers[it.rt])
        if links:
            context.set(31, context.pc + 8)
        if taken:
            context.branch(context.pc + 4 + 4 * it.immediate)
        elif likely:
            context.go_on()
            context.go_on()
        else:
            context.branch(context.npc + 4)
        return True
    return meaning


def jump(links):
    """J, JAL: the slot's address gives the top four bits of the target."""
    def meaning(it, context, memory, processor):
        not_in_a_slot(context)
        if links:
            context.set(31, context.pc + 8)
        context.branch(context.pc + 4 & 0xF0000000 | (it.word & 0x3FFFFFF) << 2)
        return True
    return meaning


def jump_register(it, context, memory, processor):
    """JR, JALR (whose rd is 0 in a JR): the target is read before the link is written."""
    not_in_a_slot(context)
    target = context.registers[it.rs]
    context.set(it.rd, context.pc + 8)
    context.branch(target)
    return True


def load(size, is_signed=False):
    def meaning(it, context, memory, processor):
        value = memory.load(it.address(context), size)
        context.set(it.rt, value - (1 << 8 * size) if is_signed and value >> 8 * size - 1 else value)
    return meaning


def store(size):
    def meaning(it, context, memory, processor):
        address = it.address(context)
        memory.index(address, size, ADES, DBE)
        memory.store(processor, address, memory.data(context.registers[it.rt], size))
    return meaning


def load_left(it, context, memory, processor):
    """LWL: the byte at the address, and those of its word that are less significant, come to the register's left."""
    address = it.address(context)
    shift = 8 * memory.before(address)
    kept = context.registers[it.rt] & (1 << shift) - 1
    context.set(it.rt, memory.load(address & ~3, 4) << shift | kept)


def load_right(it, context, memory, processor):
    """LWR: the byte at the address, and those of its word that are more significant, come to the register's right."""
    address = it.address(context)
    shift = 8 * (3 - memory.before(address))
    kept = context.registers[it.rt] & ~(WORD >> shift)
    context.set(it.rt, memory.load(address & ~3, 4) >> shift | kept)


def store_left(it, context, memory, processor):
    """SWL: the register's left goes to the byte at the address, and to those of its word that are less significant."""
    address = it.address(context)
    memory.index(address & ~3, 4, ADES, DBE)
    size = 4 - memory.before(address)
    data = memory.data(context.registers[it.rt])
    if memory.order == "big":
        memory.store(processor, address, data[:size])
    else:
        memory.store(processor, address & ~3, data[4 - size:])


def store_right(it, context, memory, processor):
    """SWR: the register's right goes to the byte at the address, and to those of its word that are more significant."""
    address = it.address(context)
    memory.index(address & ~3, 4, ADES, DBE)
    size = memory.before(address) + 1
    data = memory.data(context.registers[it.rt])
    if memory.order == "big":
        memory.store(processor, address & ~3, data[4 - size:])
    else:
        memory.store(processor, address, data[:size])


def load_linked(it, context, memory, processor):
    """LL: one that raises leaves the earlier link (own choice)."""
    address = it.address(context)
    context.set(it.rt, memory.load(address, 4))
    memory.links[processor] = address


def store_conditional(it, context, memory, processor):
    """SC: ends the link in each case, and stores only to the very word that was linked (own choices)."""
    linked = memory.links.pop(processor, None)
    address, value = it.address(context), context.registers[it.rt]
    memory.index(address, 4, ADES, DBE)
    if linked == address:
        memory.store(processor, address, memory.data(value))
    context.set(it.rt, linked == address)
    memory.counts["SC: " + ("stores" if linked == address else "no link" if linked is None else "another word")] += 1


def breakpoint_fault(it, context, memory, processor):
    raise Fault(BP)


def exact(value):
    """A sum that has to be a signed word."""
    if not -0x80000000 <= value <= 0x7FFFFFFF:
        raise Fault(OV)
    return value


def move_from(name):
    def meaning(it, context, memory, processor):
        context.set(it.rd, getattr(context, name))
    return meaning


def nothing(it, context, memory, processor):
    """SYNC, PREF; and SYSCALL, which the kernel serves when the context has gone on."""


# Comparisons of two words.
GE, GEU = (lambda rs, rt: signed(rs) >= signed(rt)), (lambda rs, rt: rs >= rt)
LT, LTU = (lambda rs, rt: signed(rs) < signed(rt)), (lambda rs, rt: rs < rt)
EQ, NE = (lambda rs, rt: rs == rt), (lambda rs, rt: rs != rt)
LTZ, GEZ = (lambda rs, rt: rs >= 0x80000000), (lambda rs, rt: rs < 0x80000000)
LEZ, GTZ = (lambda rs, rt: signed(rs) <= 0), (lambda rs, rt: signed(rs) > 0)

# Opcodes whose instructions have a code of their own: in funct, but for REGIMM, where rt has it.
SPECIAL, REGIMM, SPECIAL2 = 0x00, 0x01, 0x1C
# mnemonic: opcode, code, what must be zero (or 'rt=rd'), meaning
ROWS = {
    "SLL": (SPECIAL, 0x00, "rs", to_rd(lambda it, rs, rt: rt << it.sa)),
    "SRL": (SPECIAL, 0x02, "rs", to_rd(lambda it, rs, rt: rt >> it.sa)),
    "SRA": (SPECIAL, 0x03, "rs", to_rd(lambda it, rs, rt: signed(rt) >> it.sa)),
    "SLLV": (SPECIAL, 0x04, "sa", to_rd(lambda it, rs, rt: rt << rs % 32)),
    "SRLV": (SPECIAL, 0x06, "sa", to_rd(lambda it, rs, rt: rt >> rs % 32)),
    "SRAV": (SPECIAL, 0x07, "sa", to_rd(lambda it, rs, rt: signed(rt) >> rs % 32)),
    "JR": (SPECIAL, 0x08, "rt rd", jump_register),
    "JALR": (SPECIAL, 0x09, "rt", jump_register),
    "MOVZ": (SPECIAL, 0x0A, "sa", move_if(lambda rt: rt == 0)),
    "MOVN": (SPECIAL, 0x0B, "sa", move_if(lambda rt: rt != 0)),
    "SYSCALL": (SPECIAL, 0x0C, "", nothing),
    "BREAK": (SPECIAL, 0x0D, "", breakpoint_fault),
    "SYNC": (SPECIAL, 0x0F, "rs rt rd", nothing),
    "MFHI": (SPECIAL, 0x10, "rs rt sa", move_from("hi")),
    "MTHI": (SPECIAL, 0x11, "rt rd sa", to_hi_lo(lambda rs, rt, old: rs << 32 | old & WORD)),
    "MFLO": (SPECIAL, 0x12, "rs rt sa", move_from("lo")),
    "MTLO": (SPECIAL, 0x13, "rt rd sa", to_hi_lo(lambda rs, rt, old: old & ~WORD | rs)),
    "MULT": (SPECIAL, 0x18, "rd sa", to_hi_lo(lambda rs, rt, old: signed(rs) * signed(rt))),
    "MULTU": (SPECIAL, 0x19, "rd sa", to_hi_lo(lambda rs, rt, old: rs * rt)),
    "DIV": (SPECIAL, 0x1A, "rd sa", to_hi_lo(lambda rs, rt, old: quotient(signed(rs), signed(rt)))),
    "DIVU": (SPECIAL, 0x1B, "rd sa", to_hi_lo(lambda rs, rt, old: quotient(rs, rt))),
    "ADD": (SPECIAL, 0x20, "sa", to_rd(lambda it, rs, rt: exact(signed(rs) + signed(rt)))),
    "ADDU": (SPECIAL, 0x21, "sa", to_rd(lambda it, rs, rt: rs + rt)),
    "SUB": (SPECIAL, 0x22, "sa", to_rd(lambda it, rs, rt: exact(signed(rs) - signed(rt)))),
    "SUBU": (SPECIAL, 0x23, "sa", to_rd(lambda it, rs, rt: rs - rt)),
    "AND": (SPECIAL, 0x24, "sa", to_rd(lambda it, rs, rt: rs & rt)),
    "OR": (SPECIAL, 0x25, "sa", to_rd(lambda it, rs, rt: rs | rt)),
    "XOR": (SPECIAL, 0x26, "sa", to_rd(lambda it, rs, rt: rs ^ rt)),
    "NOR": (SPECIAL, 0x27, "sa", to_rd(lambda it, rs, rt: ~(rs | rt))),
    "SLT": (SPECIAL, 0x2A, "sa", to_rd(lambda it, rs, rt: LT(rs, rt))),
    "SLTU": (SPECIAL, 0x2B, "sa", to_rd(lambda it, rs, rt: LTU(rs, rt))),
    "TGE": (SPECIAL, 0x30, "", trap(GE)),
    "TGEU": (SPECIAL, 0x31, "", trap(GEU)),
    "TLT": (SPECIAL, 0x32, "", trap(LT)),
    "TLTU": (SPECIAL, 0x33, "", trap(LTU)),
    "TEQ": (SPECIAL, 0x34, "", trap(EQ)),
    "TNE": (SPECIAL, 0x36, "", trap(NE)),
    "BLTZ": (REGIMM, 0x00, "", branch(LTZ)),
    "BGEZ": (REGIMM, 0x01, "", branch(GEZ)),
    "BLTZL": (REGIMM, 0x02, "", branch(LTZ, likely=True)),
    "BGEZL": (REGIMM, 0x03, "", branch(GEZ, likely=True)),
    "TGEI": (REGIMM, 0x08, "", trap(GE, immediate=True)),
    "TGEIU": (REGIMM, 0x09, "", trap(GEU, immediate=True)),
    "TLTI": (REGIMM, 0x0A, "", trap(LT, immediate=True)),
    "TLTIU": (REGIMM, 0x0B, "", trap(LTU, immediate=True)),
    "TEQI": (REGIMM, 0x0C, "", trap(EQ, immediate=True)),
    "TNEI": (REGIMM, 0x0E, "", trap(NE, immediate=True)),
    "BLTZAL": (REGIMM, 0x10, "", branch(LTZ, links=True)),
    "BGEZAL": (REGIMM, 0x11, "", branch(GEZ, links=True)),
    "BLTZALL": (REGIMM, 0x12, "", branch(LTZ, likely=True, links=True)),
    "BGEZALL": (REGIMM, 0x13, "", branch(GEZ, likely=True, links=True)),
    "MADD": (SPECIAL2, 0x00, "rd sa", to_hi_lo(lambda rs, rt, old: old + signed(rs) * signed(rt))),
    "MADDU": (SPECIAL2, 0x01, "rd sa", to_hi_lo(lambda rs, rt, old: old + rs * rt)),
    "MUL": (SPECIAL2, 0x02, "sa", to_rd(lambda it, rs, rt: rs * rt)),  # (HI and LO stay: own choice)
    "MSUB": (SPECIAL2, 0x04, "rd sa", to_hi_lo(lambda rs, rt, old: old - signed(rs) * signed(rt))),
    "MSUBU": (SPECIAL2, 0x05, "rd sa", to_hi_lo(lambda rs, rt, old: old - rs * rt)),
    "CLZ": (SPECIAL2, 0x20, "sa rt=rd", to_rd(lambda it, rs, rt: 32 - rs.bit_length())),
    "CLO": (SPECIAL2, 0x21, "sa rt=rd", to_rd(lambda it, rs, rt: 32 - (rs ^ WORD).bit_length())),
    "J": (0x02, None, "", jump(links=False)),
    "JAL": (0x03, None, "", jump(links=True)),
    "BEQ": (0x04, None, "", branch(EQ)),
    "BNE": (0x05, None, "", branch(NE)),
    "BLEZ": (0x06, None, "rt", branch(LEZ)),
    "BGTZ": (0x07, None, "rt", branch(GTZ)),
    "ADDI": (0x08, None, "", to_rt(lambda rs, immediate: exact(signed(rs) + immediate))),
    "ADDIU": (0x09, None, "", to_rt(lambda rs, immediate: rs + immediate)),
    "SLTI": (0x0A, None, "", to_rt(lambda rs, immediate: signed(rs) < immediate)),
    "SLTIU": (0x0B, None, "", to_rt(lambda rs, immediate: rs < immediate & WORD)),
    "ANDI": (0x0C, None, "", to_rt(lambda rs, immediate: rs & immediate & 0xFFFF)),
    "ORI": (0x0D, None, "", to_rt(lambda rs, immediate: rs | immediate & 0xFFFF)),
    "XORI": (0x0E, None, "", to_rt(lambda rs, immediate: rs ^ immediate & 0xFFFF)),
    "LUI": (0x0F, None, "rs", to_rt(lambda rs, immediate: immediate << 16)),
    "BEQL": (0x14, None, "", branch(EQ, likely=True)),
    "BNEL": (0x15, None, "", branch(NE, likely=True)),
    "BLEZL": (0x16, None, "rt", branch(LEZ, likely=True)),
    "BGTZL": (0x17, None, "rt", branch(GTZ, likely=True)),
    "LB": (0x20, None, "", load(1, is_signed=True)),
    "LH": (0x21, None, "", load(2, is_signed=True)),
    "LWL": (0x22, None, "", load_left),
    "LW": (0x23, None, "", load(4)),
    "LBU": (0x24, None, "", load(1)),
    "LHU": (0x25, None, "", load(2)),
    "LWR": (0x26, None, "", load_right),
    "SB": (0x28, None, "", store(1)),
    "SH": (0x29, None, "", store(2)),
    "SWL": (0x2A, None, "", store_left),
    "SW": (0x2B, None, "", store(4)),
    "SWR": (0x2E, None, "", store_right),
    "LL": (0x30, None, "", load_linked),
    "PREF": (0x33, None, "", nothing),
    "SC": (0x38, None, "", store_conditional),
}
MNEMONICS = {(opcode, code): mnemonic for mnemonic, (opcode, code, _, _) in ROWS.items()}


class Instruction(collections.namedtuple("Instruction", "word mnemonic meaning rs rt rd sa immediate")):
    """An instruction with its fields; the immediate is signed."""
    __slots__ = ()

    def address(self, context):
        return context.registers[self.rs] + self.immediate & WORD


@functools.lru_cache(maxsize=None)
def decode(word):
    """The instruction of a word, or None: a field that MD00086 has as zeros must be zero (own choice)."""
    opcode, (rs, rt, rd, sa) = word >> 26, (word >> at & 31 for at in (21, 16, 11, 6))
    code = {SPECIAL: word & 63, REGIMM: rt, SPECIAL2: word & 63}.get(opcode)
    mnemonic = MNEMONICS.get((opcode, code))
    if mnemonic is None:
        return None
    _, _, zero, meaning = ROWS[mnemonic]
    fields = {"rs": rs, "rt": rt, "rd": rd, "sa": sa, "rt=rd": rt != rd}
    if any(fields[name] for name in zero.split()):
        return None
    return Instruction(word, mnemonic, meaning, rs, rt, rd, sa, (word & 0xFFFF) - (word & 0x8000) * 2)


def encode(mnemonic, rs=0, rt=0, rd=0, sa=0, immediate=0):
    """The word of an instruction; the fields that it doesn't have are left 0 by the caller."""
    opcode, code, _, _ = ROWS[mnemonic]
    if opcode == REGIMM:
        rt = code
    funct = code if opcode in (SPECIAL, SPECIAL2) else immediate & 0xFFFF
    return opcode << 26 | rs << 21 | rt << 16 | rd << 11 | sa << 6 | funct


def execute(context, memory, processor):
    """One instruction of a context, and whether it is a SYSCALL. The context has gone on, unless it raises a Fault."""
    instruction = decode(memory.load(context.pc, 4, outside=IBE))
    if instruction is None:
        raise Fault(RI)
    if not instruction.meaning(instruction, context, memory, processor):
        context.go_on()
    return instruction.mnemonic == "SYSCALL"
