"""Instructions as the assembler's source has them, and what each is said to do in a line of `board trace`."""
from machine import EQ, GEZ, GTZ, LEZ, LTZ, NE, WORD, Fault, decode

NAMES = ["zero", "at", "v0", "v1", *(f"a{n}" for n in range(4)), *(f"t{n}" for n in range(8)),
         *(f"s{n}" for n in range(8)), "t8", "t9", "k0", "k1", "gp", "sp", "fp", "ra"]
BYTES, HALFWORDS = ("LB", "LBU"), ("LH", "LHU")
WORDS = ("LW", "LWL", "LWR", "LL", "SB", "SH", "SW", "SWL", "SWR", "SC")
CONDITIONS = {"EQ": EQ, "NE": NE, "LTZ": LTZ, "GEZ": GEZ, "LEZ": LEZ, "GTZ": GTZ}
# The operands of mnemonics. Of those that aren't here: rd, rs, rt.
OPERANDS = {
    "rd rt sa": "SLL SRL SRA", "rd rt rs": "SLLV SRLV SRAV", "rs": "JR MTHI MTLO", "rd rs": "JALR CLZ CLO",
    "long": "SYSCALL BREAK", "": "SYNC", "rd": "MFHI MFLO", "rs rt": "MULT MULTU DIV DIVU MADD MADDU MSUB MSUBU",
    "rs rt short": "TGE TGEU TLT TLTU TEQ TNE", "rs signed": "TGEI TGEIU TLTI TLTIU TEQI TNEI", "region": "J JAL",
    "rs rt offset": "BEQ BNE BEQL BNEL",
    "rs offset": "BLEZ BGTZ BLEZL BGTZL BLTZ BGEZ BLTZL BGEZL BLTZAL BGEZAL BLTZALL BGEZALL",
    "rt rs signed": "ADDI ADDIU SLTI SLTIU", "rt rs bits": "ANDI ORI XORI", "rt bits": "LUI",
    "rt memory": " ".join((*BYTES, *HALFWORDS, *WORDS)), "hint memory": "PREF",
}
KINDS = {mnemonic: kinds for kinds, mnemonics in OPERANDS.items() for mnemonic in mnemonics.split()}


def operand(it, kind, address):
    """An operand, or None for a code that is 0."""
    word = it.word
    register = {"rs": it.rs, "rt": it.rt, "rd": it.rd}.get(kind)
    if register is not None:
        return f"${NAMES[register]}"
    if kind in ("long", "short"):
        code = word >> 6 & (0xFFFFF if kind == "long" else 0x3FF)
        return str(code) if code else None
    return {
        "sa": str(it.sa), "hint": str(it.rt), "signed": str(it.immediate), "bits": f"0x{word & 0xFFFF:x}",
        "region": f"0x{address + 4 & 0xF0000000 | (word & 0x3FFFFFF) << 2:08x}",
        "offset": f"0x{target(it, address):08x}", "memory": f"{it.immediate}(${NAMES[it.rs]})",
    }[kind]


def target(it, address):
    """Where a branch at an address leads."""
    return address + 4 + 4 * it.immediate & WORD


def text(it, address):
    """The line of source for an instruction at an address."""
    if it.word == 0:
        return "nop"
    operands = [operand(it, kind, address) for kind in KINDS.get(it.mnemonic, "rd rs rt").split()]
    return " ".join([it.mnemonic.lower(), ", ".join(one for one in operands if one)]).strip()


def is_branch(it):
    return it.mnemonic.startswith("B") and it.mnemonic != "BREAK"


class Step:
    """A step that is to be, seen before it: the instruction, its registers, and the links."""

    def __init__(self, memory, context, processor):
        self.context, self.address, self.slot = context, context.pc, context.slot
        self.before = [*context.registers, context.hi, context.lo]
        self.processor, self.links = processor, dict(memory.links)
        try:
            self.instruction = decode(memory.load(context.pc, 4))
        except Fault:
            self.instruction = None

    def effect(self, memory):
        """What it was, and what it has done, as the pieces of a line between semicolons."""
        it = self.instruction
        names = [*(f"${name}" for name in NAMES), "hi", "lo"]
        after = [*self.context.registers, self.context.hi, self.context.lo]
        said = [text(it, self.address)]
        said += [f"{name} = {new:08x}" for name, old, new in zip(names, self.before, after) if old != new]
        said += [*self.access(memory), *self.jump()]
        said += ["in the delay slot"] * self.slot
        return said + [f"ends the link of cpu {other}" for other in sorted(self.links.keys() - memory.links.keys())
                       if other != self.processor]

    def access(self, memory):
        """Of a load what it loads, else the aligned word; of an SC whether it has stored."""
        it = self.instruction
        if it.mnemonic not in (*BYTES, *HALFWORDS, *WORDS):
            return
        address = self.before[it.rs] + it.immediate & WORD
        length = 1 if it.mnemonic in BYTES else 2 if it.mnemonic in HALFWORDS else 4
        start = address - address % length
        yield f"{start:08x}: {memory.load(start, length):0{2 * length}x}"
        if it.mnemonic == "SC":
            yield "stored" if self.links.get(self.processor) == address else "not stored"

    def jump(self):
        """Where a jump leads, and whether a branch is taken."""
        it = self.instruction
        if it.mnemonic in ("JR", "JALR"):
            yield f"to {self.before[it.rs]:08x}"
        elif it.mnemonic in ("J", "JAL"):
            yield f"to {operand(it, 'region', self.address)[2:]}"
        elif is_branch(it):
            condition = next(test for name, test in CONDITIONS.items() if it.mnemonic[1:].startswith(name))
            taken = condition(self.before[it.rs], self.before[it.rt])
            yield f"taken, to {target(it, self.address):08x}" if taken else "not taken"
