"""The vectors: what each executes, with which registers. All come from a fixed seed, the same on each machine.

A vector is a block of words, entered at one of them, and the registers at its beginning. Its name begins with the
family's. One whose result the manual leaves open, or in which QEMU differs, names its row of differences.table.
"""
import os

import image

MASK = 0xFFFFFFFF
ENDS = (0, 1, 2, 0x7FFFFFFF, 0x80000000, 0x80000001, 0xFFFFFFFE, MASK, 0x0000FFFF, 0xFFFF8000)
IMMEDIATES = (0, 1, 0x7FFF, 0x8000, 0xFFFF, 0x5A5A)
END = [("j", None), 0]

# Mnemonics of the board that QEMU's processor doesn't have, so that they have no vectors.
NOT_IN_QEMU = ()


class Drawn:
    """Random numbers: xorshift of 32 bits."""

    def __init__(self, seed):
        self.state = seed

    def word(self):
        for shift in (13, -17, 5):
            self.state ^= self.state << shift if shift > 0 else self.state >> -shift
            self.state &= MASK
        return self.state

    def below(self, count):
        return (self.word() >> 8) % count

    def one(self, of):
        return of[self.below(len(of))]

    def value(self):
        """A random word, or every third time an end."""
        return self.one(ENDS) if self.below(3) == 0 else self.word()


class Vector:
    def __init__(self, name, words, registers, entry, row):
        self.name, self.words, self.registers, self.entry, self.row = name, words, registers, entry, row
        self.address = 0

    def place(self, address):
        """Lays the block at an address: jumps and registers that name words of the block get their addresses."""
        self.address = address
        self.words = [self.word(word) for word in self.words]
        self.registers = {key: self.at(value) for key, value in self.registers.items()}

    def at(self, value):
        """`("at", n)` is the address of word n; any other value is itself."""
        return self.address + 4 * value[1] if isinstance(value, tuple) else value

    def word(self, word):
        """`("j", n)` and `("jal", n)` jump to word n, to FINISH without one."""
        if not isinstance(word, tuple):
            return word
        target = image.FINISH if word[1] is None else self.address + 4 * word[1]
        return {"j": 0x08000000, "jal": 0x0C000000}[word[0]] | (target >> 2) & 0x03FFFFFF

    def started(self):
        """The registers at the beginning, by number, with HI and LO. Those that no vector sets show which they are."""
        values = {register: 0x01010101 * register for register in range(1, 32)}
        values.update({"hi": 0x11223344, "lo": 0x55667788})
        values.update(self.registers)
        values[image.K1] = self.address + 4 * self.entry
        return values

    def record(self):
        values = self.started()
        return [values[image.K1], values["hi"], values["lo"], *(values[register] for register in range(1, 32))]


def codes(path=os.path.join(os.path.dirname(os.path.abspath(__file__)), "..", "data", "encodings.table")):
    """The rows of tests/data/encodings.table: name, word, bits that must be zero, bits that are ignored."""
    with open(path, encoding="ascii") as file:
        rows = [line.rstrip("\n").split("|") for line in file if not line.startswith("#")]
    return {name: tuple(int(number, 16) for number in numbers) for name, *numbers in rows if name not in NOT_IN_QEMU}


CODES = codes()


def base(name):
    """A mnemonic's word without operands."""
    word = CODES[name][0]
    kept = {0x00: 0xFC00003F, 0x1C: 0xFC00003F, 0x01: 0xFC1F0000}.get(word >> 26, 0xFC000000)
    return word & kept


def word(name, rs=0, rt=0, rd=0, sa=0, imm=0):
    return base(name) | rs << 21 | rt << 16 | rd << 11 | sa << 6 | imm & 0xFFFF


THREE = ("add addu sub subu and or xor nor slt sltu mul movz movn").split()
PRODUCTS = ("mult multu madd maddu msub msubu").split()
VARIABLE = ("sllv srlv srav").split()
SHIFTS = ("sll srl sra").split()
SUMS = ("addi addiu slti sltiu andi ori xori").split()
TRAPS = ("tge tgeu tlt tltu teq tne").split()
TRAPS_IMMEDIATE = ("tgei tgeiu tlti tltiu teqi tnei").split()
LOADS = ("lb lbu lh lhu lw ll lwl lwr").split()
STORES = ("sb sh sw sc swl swr").split()
TWO_BRANCHES = ("beq bne beql bnel").split()
ONE_BRANCHES = ("blez bgtz blezl bgtzl bltz bgez bltzl bgezl bltzal bgezal bltzall bgezall").split()
COUNTS = ("clz clo").split()
MUL_ROW = "HI and LO after MUL"
SKIPPED = ("bnel not taken", "bltzall not taken")


class Vectors:
    def __init__(self, seed):
        self.all = []
        self.drawn = Drawn(seed)

    def add(self, name, words, registers=None, entry=0, row=None):
        self.all.append(Vector(name, [*words, *END], registers or {}, entry, row))

    def random_registers(self):
        return {**{register: self.drawn.value() for register in range(1, 32)},
                "hi": self.drawn.word(), "lo": self.drawn.word()}

    def three_registers(self):
        for name in THREE + VARIABLE:
            row = MUL_ROW if name == "mul" else None
            for first in ENDS:
                for second in ENDS:
                    self.add(name, [word(name, 1, 2, 3)], {1: first, 2: second}, row=row)
            for _ in range(25):
                self.any_registers(name, row)

    def any_registers(self, name, row):
        """Any three registers, also equal ones and register 0."""
        drawn = self.drawn
        rs, rt, rd = (drawn.one((drawn.below(32), 0, 5)) for _ in range(3))
        self.add(name, [word(name, rs, rt, rd)], self.random_registers(), row=row)

    def shifts(self):
        for name in SHIFTS:
            for amount in range(32):
                for value in (0x80000001, 0x7FFFFFFE, self.drawn.word()):
                    self.add(name, [word(name, 0, 1, 3, amount)], {1: value})
            for _ in range(10):
                self.add(name, [word(name, 0, self.drawn.below(32), self.drawn.below(32), self.drawn.below(32))],
                         self.random_registers())
        for name in VARIABLE:
            for amount in [*range(32), 32, 33, 63, 64, 0x7FFFFFE0, 0x80000000, 0x8000001F, MASK]:
                for value in (0x80000001, self.drawn.word()):
                    self.add(name, [word(name, 1, 2, 3)], {1: amount, 2: value})

    def counts(self):
        for name in COUNTS:
            values = [*(MASK >> n for n in range(33)), *(MASK ^ MASK >> n for n in range(33)),
                      *(1 << n for n in range(32)), *(self.drawn.word() >> n for n in range(32)), *ENDS]
            for value in values:
                self.add(name, [word(name, 1, 3, 3)], {1: value})
            self.add(name, [word(name, 4, 4, 4)], {4: self.drawn.word()})
            self.add(name, [word(name, 4, 0, 0)], {4: self.drawn.word()})

    def immediates(self):
        for name in SUMS:
            for value in ENDS:
                for immediate in IMMEDIATES:
                    self.add(name, [word(name, 1, 3, imm=immediate)], {1: value})
            for _ in range(25):
                self.add(name, [word(name, self.drawn.below(32), self.drawn.below(32), imm=self.drawn.word())],
                         self.random_registers())
        for immediate in (*IMMEDIATES, self.drawn.word()):
            for rt in (0, 3, 31):
                self.add("lui", [word("lui", 0, rt, imm=immediate)])

    def traps(self):
        for name in TRAPS:
            for first in ENDS:
                for second in (0, 1, 0x7FFFFFFF, 0x80000000, MASK):
                    self.add(name, [word(name, 1, 2)], {1: first, 2: second})
            for code in (1, 0x1FF, 0x3FF):
                self.add(name, [base(name) | 1 << 21 | 2 << 16 | code << 6], {1: 5, 2: 5})
                self.add(name, [base(name) | 1 << 21 | 2 << 16 | code << 6], {1: 5, 2: 6})
        for name in TRAPS_IMMEDIATE:
            for value in (*ENDS, 0x7FFF, 0x5A5A):
                for immediate in IMMEDIATES:
                    self.add(name, [word(name, 1, imm=immediate)], {1: value})
        for code in (0, 1, 0x7FFFF, 0xFFFFF):
            self.add("break", [base("break") | code << 6])
            self.add("syscall", [base("syscall") | code << 6], {2: 0x7FFFFFFF}, row="syscall")

    def products(self):
        for name in PRODUCTS:
            for first in ENDS:
                for second in ENDS:
                    self.add(name, [word(name, 1, 2)], {1: first, 2: second})
            for _ in range(40):
                self.add(name, [word(name, self.drawn.below(32), self.drawn.below(32))], self.random_registers())
        for name in ("madd", "maddu", "msub", "msubu"):
            for high, low in ((0, 0), (0, MASK), (MASK, MASK), (0x7FFFFFFF, MASK), (0x80000000, 0)):
                for first, second in ((1, 1), (MASK, 1), (0x80000000, 0x80000000), (MASK, MASK)):
                    self.add(name, [word(name, 1, 2)], {1: first, 2: second, "hi": high, "lo": low})

    def quotients(self):
        pairs = [(first, second) for first in ENDS for second in ENDS]
        pairs += [(self.drawn.word(), self.drawn.word() >> self.drawn.below(32)) for _ in range(60)]
        for name in ("div", "divu"):
            for first, second in pairs:
                row = "divisor 0" if second == 0 else None
                if name == "div" and (first, second) == (0x80000000, MASK):
                    row = "quotient 2^31"
                self.add(name, [word(name, 1, 2)], {1: first, 2: second}, row=row)

    def halves(self):
        for rd in range(32):
            self.add("mfhi", [word("mfhi", rd=rd)], {"hi": self.drawn.word()})
            self.add("mflo", [word("mflo", rd=rd)], {"lo": self.drawn.word()})
            self.add("mthi", [word("mthi", rd)], {rd: self.drawn.word()} if rd else {})
            self.add("mtlo", [word("mtlo", rd)], {rd: self.drawn.word()} if rd else {})

    def accesses(self):
        """Each load and store at each byte of the window, with offsets to both sides, and with their ends."""
        for name in LOADS + STORES:
            for byte in range(32):
                row = lone_store(byte) if name == "sc" else None
                for offset in (0, 5, -3) if byte > 3 else (0, 5, -3, 0x7FFF, -0x8000):
                    self.add(name, [word(name, 1, 3, imm=offset)],
                             {1: image.DATA + byte - offset, 3: self.drawn.word()}, row=row)
                for rt in (0, 1) if byte < 4 else ():
                    self.add(name, [word(name, 1, rt)], {1: image.DATA + byte}, row=row)
        for byte in range(4):
            self.add("pref", [word("pref", 1, byte)], {1: image.DATA + byte})
            self.add("pref", [word("pref", 1, 28 + byte)], {1: image.DATA + byte},
                     row="PREF with hint 30" if byte == 2 else None)
        self.add("sync", [word("sync")])

    def unaligned_pairs(self):
        """A word across two aligned ones, by both halves, in both orders of the two addresses."""
        for byte in range(13):
            for first, second in ((0, 3), (3, 0)):
                registers = {1: image.DATA + byte, 3: self.drawn.word()}
                self.add("lwl lwr", [word("lwl", 1, 3, imm=first), word("lwr", 1, 3, imm=second)], registers)
                self.add("swl swr", [word("swl", 1, 3, imm=first), word("swr", 1, 3, imm=second)], registers)

    def outside(self):
        """Accesses and fetches where there is no RAM: behind it, and where an address needs a TLB."""
        for name in LOADS + STORES + ["pref"]:
            row = "SC outside RAM" if name == "sc" else None
            for address in (0x80000000 + image.RAM, 0x8FFFFFF0):
                self.add(f"{name} outside", [word(name, 1, 3)], {1: address}, row=row)
            self.add(f"{name} at the end", [word(name, 1, 3)], {1: 0x80000000 + image.RAM - 4},
                     row=lone_store(0) if name == "sc" else None)
            row = row if name in ("sc", "pref") else "access with a TLB"
            for address in (0, 0x7FFFFFFC, 0xC0000000, 0xFFFFFFFC):
                self.add(f"{name} outside", [word(name, 1, 3)], {1: address}, row=row)
        for name, low in (("lh", 1), ("lw", 2), ("ll", 3), ("sh", 3), ("sw", 1), ("sc", 2)):
            row = lone_store(low) if name == "sc" else None
            for address in (0x80000000 + image.RAM, 0x40000000, 0xFFFFFFF0):
                self.add(f"{name} outside, unaligned", [word(name, 1, 3)], {1: address + low}, row=row)
        for address in (0x80000000 + image.RAM, 0x8FFFFFF0):
            self.add("fetch outside", [word("jr", 1), 0], {1: address})
            self.add("fetch outside", [word("jalr", 1, 0, 31), 0], {1: address})
        for address in (0, 0x7FFFFFFC, 0xC0000000):
            self.add("fetch with a TLB", [word("jr", 1), 0], {1: address}, row="fetch with a TLB")
        for low in (1, 2, 3):
            self.add("fetch unaligned", [word("jr", 1), addiu(2, 1)], {1: image.FINISH + low})
            self.add("fetch unaligned", [word("jalr", 1, 0, 4), addiu(2, 1)], {1: image.FINISH + low})
            self.add("fetch unaligned", [word("jr", 1), addiu(2, 1)], {1: 0x80000000 + image.RAM + low})

    def links(self):
        """LL and SC of one processor."""
        def ll(offset):
            return word("ll", 1, 3, imm=offset)

        def sc(offset):
            return word("sc", 1, 4, imm=offset)
        registers = {1: image.DATA, 4: 0x13572468, 5: 0x2468ACE0}
        for offset in range(0, 32, 4):
            self.add("ll sc", [ll(offset), sc(offset)], registers)
            self.add("ll add sc", [ll(offset), word("addu", 3, 5, 4), sc(offset)], registers)
            self.add("ll sc sc", [ll(offset), sc(offset), addiu(4, 7), sc(offset)], registers, row=lone_store(0))
            self.add("ll ll sc", [ll(offset ^ 4), ll(offset), sc(offset)], registers)
            self.add("ll sc 0", [ll(offset), word("sc", 1, 0, imm=offset)], registers)
            for other in range(0, 32, 4):
                if other != offset:
                    self.add("ll, sc elsewhere", [ll(offset), sc(other)], registers, row="SC of another word")
                    self.add("ll, sc elsewhere, sc", [ll(offset), sc(other), addiu(4, 7), sc(offset)], registers,
                             row="SC after one that failed")
                    self.add("ll sw sc", [ll(offset), word("sw", 1, 5, imm=other), sc(offset)], registers,
                             row="store beside the word")
            self.add("ll sw sc", [ll(offset), word("sw", 1, 5, imm=offset), sc(offset)], registers,
                     row="store into the word")
            self.add("ll sb sc", [ll(offset), word("sb", 1, 5, imm=offset), sc(offset)], registers,
                     row="store into the word")
            self.add("ll lw sc", [ll(offset), word("lw", 1, 6, imm=offset), sc(offset)], registers,
                     row="load after LL")

    def branches(self):
        """Each branch, forward and backward, with and without an instruction in the slot that changes its operands."""
        for name in TWO_BRANCHES:
            for first in ENDS:
                for second in {first, 0, MASK, 0x80000000}:
                    self.branch(name, word(name, 1, 2), {1: first, 2: second})
            self.branch(name, word(name, 1, 1), {})
            self.branch(name, word(name, 0, 0), {})
        for name in ONE_BRANCHES:
            for value in ENDS:
                self.branch(name, word(name, 1), {1: value})
            self.branch(name, word(name, 0), {})
        for name in ONE_BRANCHES[-4:]:
            for value in (1, MASK):
                self.branch(name, word(name, 31), {31: value}, row="link over the operand")

    def branch(self, name, code, registers, row=None):
        for slot in (addiu(10, 1), addiu(1, 1), word("subu", 0, 31, 31)):
            self.add(f"{name} forward", [code | 4, slot, addiu(11, 1), *END, addiu(12, 1)], registers, row=row)
        self.add(f"{name} backward", [addiu(12, 1), *END, code | -4 & 0xFFFF, addiu(10, 1), addiu(11, 1)], registers,
                 3, row)
        self.add(f"{name} to the next", [code | 1, addiu(10, 1), addiu(11, 1)], registers, row=row)

    def far_branches(self):
        """The ends of an offset lead out of the block, so these aren't taken."""
        for offset in (0x7FFF, 0x8000):
            for name in TWO_BRANCHES[1:4:2] + ["bgtz", "bltz", "bltzal", "bgtzl"]:
                self.add(f"{name} not taken, far", [word(name, 0, imm=offset), addiu(10, 1), addiu(11, 1)])

    def jumps(self):
        slots = (0, addiu(1, 4), addiu(31, 4), word("ori", 0, 3, imm=9))
        for slot in slots:
            body = [slot, addiu(11, 1), *END, addiu(12, 1)]
            for name in ("j", "jal"):
                self.add(name, [(name, 5), *body])
                self.add(f"{name} backward", [addiu(12, 1), *END, (name, 0), slot, addiu(11, 1)], {}, 3)
            for rs in (1, 2, 31):
                self.add("jr", [word("jr", rs), *body], {rs: ("at", 5)})
                for rd in (0, 1, 4, 31):
                    self.add("jalr", [word("jalr", rs, rd=rd), *body], {rs: ("at", 5)},
                             row="JALR of one register" if rd == rs else None)

    def contexts(self):
        """The ways in which an instruction stands in a delay slot, or behind one: name, the words before it."""
        return [("beq taken", word("beq", 16, 17, imm=4)), ("beq not taken", word("beq", 16, 18, imm=4)),
                ("bnel taken", word("bnel", 16, 18, imm=4)), ("bnel not taken", word("bnel", 16, 17, imm=4)),
                ("bgezal taken", word("bgezal", 16, imm=4)), ("bltzal not taken", word("bltzal", 16, imm=4)),
                ("bltzall not taken", word("bltzall", 16, imm=4)), ("bgezall taken", word("bgezall", 16, imm=4)),
                ("bgtzl taken", word("bgtzl", 16, imm=4)), ("blez not taken", word("blez", 16, imm=4)),
                ("j", ("j", 5)), ("jal", ("jal", 5)), ("jr", word("jr", 19)), ("jalr", word("jalr", 19, rd=31)),
                ("jalr 24", word("jalr", 19, rd=24))]

    def in_slots(self):
        for name in CODES:
            for case in self.operands(name):
                for context, code in self.contexts():
                    self.in_slot(name, context, code, case, None if context in SKIPPED else self.slot_row(name, case))
        self.in_slot_branches()

    @staticmethod
    def slot_row(name, case):
        """The row for an instruction in a slot where it is executed."""
        return lone_store(case[1][1] % 4) if name == "sc" else MUL_ROW if name == "mul" else None

    def in_slot(self, name, context, code, case, row=None):
        """The instruction in the slot of `code`, whose target is word 5; both ways out are marked."""
        slot, values = case
        registers = {16: 1, 17: 1, 18: 2, 19: ("at", 5), 20: 0, 21: 0, **values}
        words = [code, slot, addiu(20, 1), *END, addiu(21, 1)]
        self.add(f"{name} in the slot of {context}", words, registers, row=row)

    def operands(self, name):
        """For a mnemonic that is no branch, one or two words for a slot, with registers: of those that may raise an
        exception one raises it and one doesn't."""
        drawn = self.drawn
        if name in TWO_BRANCHES + ONE_BRANCHES + ["j", "jal", "jr", "jalr", "syscall"]:
            return []
        if name in ("add", "sub"):
            return [(word(name, 1, 2, 3), {1: 0x7FFFFFFF, 2: 1 if name == "add" else MASK}),
                    (word(name, 1, 31, 3), {1: 5})]
        if name == "addi":
            return [(word(name, 1, 3, imm=1), {1: 0x7FFFFFFF}), (word(name, 31, 3, imm=-4), {})]
        if name in TRAPS:
            return [(word(name, 1, 2), {1: first, 2: 7}) for first in (6, 7, 8)]
        if name in TRAPS_IMMEDIATE:
            return [(word(name, 1, imm=7), {1: first}) for first in (6, 7, 8)]
        if name in LOADS + STORES:
            return [(word(name, 1, 3, imm=4), {1: image.DATA + byte, 3: drawn.word()}) for byte in (0, 1, 2)]
        if name in COUNTS:
            return [(word(name, 31, 3, 3), {})]
        if name in ("div", "divu"):
            return [(word(name, 1, 2), {1: drawn.word(), 2: drawn.word() | 1})]
        if name in PRODUCTS:
            return [(word(name, 1, 31), {1: drawn.word()})]
        if name in SUMS + ["lui"]:
            return [(word(name, 0 if name == "lui" else 31, 3, imm=drawn.word()), {})]
        if name in SHIFTS:
            return [(word(name, 0, 31, 3, drawn.below(32)), {})]
        return [(CODES[name][0], {1: drawn.word(), 2: drawn.word()})]

    def in_slot_branches(self):
        """A branch or a jump in a delay slot; after a branch-likely that isn't taken it isn't executed."""
        inner = [(name, word(name, 1, 2 if name in TWO_BRANCHES else 0, imm=1), {1: 1, 2: 1})
                 for name in TWO_BRANCHES + ONE_BRANCHES]
        inner += [("j", ("j", None), {}), ("jal", ("jal", None), {}), ("jr", word("jr", 1), {1: image.FINISH}),
                  ("jalr", word("jalr", 1, rd=4), {1: image.FINISH})]
        for name, slot, values in inner:
            for context, code in self.contexts():
                row = None if context in SKIPPED else "branch in a delay slot"
                self.in_slot(name, context, code, (slot, values), row)

    def fields(self):
        """Bits of fields that the manual has as zeros, each turned alone; and bits that are ignored."""
        for name, (code, zeros, ignored) in CODES.items():
            branch = name in TWO_BRANCHES + ONE_BRANCHES
            code = code & ~0xFFFF | 1 if branch else code
            for bit in range(32):
                if zeros >> bit & 1:
                    self.add(f"{name}, bit {bit}", [code ^ 1 << bit, 0], {1: image.FINISH},
                             row="CLZ and CLO" if name in COUNTS and bit > 10 else "field of zeros")
                elif ignored >> bit & 1:
                    self.add(f"{name}, bit {bit}", [code ^ 1 << bit, 0], {1: image.FINISH},
                             row="hint of a jump" if name in ("jr", "jalr") and bit < 10 else None)

    def reserved(self, path=os.path.join(os.path.dirname(os.path.abspath(__file__)), "..", "data", "reserved.words")):
        with open(path, encoding="ascii") as file:
            words = [int(line, 16) for line in file if line.strip()]
        for code in words:
            if code != 0x7000003F:
                self.add(f"reserved {code:08x}", [code, 0], {}, row=absent(code))
                self.add(f"reserved {code:08x} in a slot", [word("beq", imm=1), code], {}, row=absent(code))

    def sequences(self):
        """Some instructions in a row, each over registers that others write."""
        names = [name for name in THREE + VARIABLE + PRODUCTS + SHIFTS + SUMS if name not in ("add", "sub", "addi")]
        names += ["mfhi", "mflo", "clz", "clo", "lui"]
        names.remove("mul")
        for _ in range(400):
            self.add("sequence", [self.any_word(self.drawn.one(names)) for _ in range(8)], self.random_registers())
        for name in PRODUCTS:
            for half in ("mthi", "mtlo"):
                code = [word(name, 1, 2), word(half, 4), word("mfhi", rd=5), word("mflo", rd=6)]
                self.add(f"{name} {half}", code, self.random_registers(), row="LO after MTHI, HI after MTLO")

    def any_word(self, name):
        """An instruction with random operands among the registers 0 to 7."""
        rs, rt, rd = (self.drawn.below(8) for _ in range(3))
        if name in SUMS + ["lui"]:
            return word(name, 0 if name == "lui" else rs, rt, imm=self.drawn.word())
        if name in SHIFTS:
            return word(name, 0, rt, rd, self.drawn.below(32))
        if name in PRODUCTS:
            return word(name, rs, rt)
        if name in COUNTS:
            return word(name, rs, rd, rd)
        if name in ("mfhi", "mflo"):
            return word(name, rd=rd)
        return word(name, rs, rt, rd)


def addiu(register, value):
    """Marks a way: a register gets more."""
    return word("addiu", register, register, imm=value)


def lone_store(low):
    """The row of an SC without an LL, by the low bits of its address."""
    return "SC at an unaligned address" if low % 4 else "SC without an LL"


def absent(code):
    """The row for a word that the board doesn't have, where QEMU's processor does something else than raise RI."""
    coprocessors = (0x10, 0x11, 0x12, 0x13, 0x2F, 0x31, 0x32, 0x35, 0x36, 0x39, 0x3A, 0x3D, 0x3E)
    if code >> 26 in coprocessors or code & 0xFC00003F == 0x00000001:
        return "coprocessor"
    return "MDMX and PMON" if code in (0x78000000, 0x00000005) else None


def everything(seed):
    """All vectors, laid out from BLOCKS on."""
    vectors = Vectors(seed)
    for family in ("three_registers", "shifts", "counts", "immediates", "traps", "products", "quotients", "halves",
                   "accesses", "unaligned_pairs", "outside", "links", "branches", "far_branches", "jumps", "in_slots",
                   "fields", "reserved", "sequences"):
        getattr(vectors, family)()
    address = image.BLOCKS
    for vector in vectors.all:
        vector.place(address)
        address += 4 * len(vector.words)
    return vectors.all
