"""Random boards whose processors spin sooner or later, or do nearly: loops in tasks and in handlers, some of which do
the same for ever, some until another processor stores a word, and some that count, store or call."""
from boards import BASE, RESULTS, SCRATCH, SHARED, Maker
from machine import encode

# Registers that a loop only reads, those that it gives the same value in each round, and those that it makes others.
READ, GIVEN, TURNED = SCRATCH[:4], SCRATCH[4:9], SCRATCH[9:]
LOADS = ("LW", "LW", "LL", "LB", "LBU", "LH", "LHU", "LWL", "LWR")
STORES = ("SW", "SB", "SH", "SWL", "SWR")
# What does the same in each round: it gives a register what comes of words, or of an immediate; or it gives HI and LO.
OF_WORDS = "ADDU SUBU AND OR XOR NOR SLT SLTU SLLV SRAV MUL MOVZ MOVN CLZ MFHI MFLO".split()
OF_IMMEDIATES = "ADDIU SLTI SLTIU ANDI ORI XORI LUI".split()
TO_HI_LO = "MULT MULTU DIV DIVU MTHI MTLO".split()


class Looping(Maker):
    """The board of a seed, as Maker makes it, with loops in its programs, and with a spin lock at least."""

    def shape(self):
        super().shape()
        self.spin_locks, self.locks = self.spin_locks or self.ids(1), self.chance(.1, .4, 1)
        if self.often(.5):
            # (the manager's processor isn't left to it)
            self.place |= {task: self.random.randrange(1, self.processors + 1) for task in self.others}

    # Programs

    def worker(self, code, task):
        if self.often(.2):
            # (here it begins, and so without an address in the register that names what programs share)
            self.address[task] = code.here()
            return self.chance(self.still, self.long, self.rounds)(code)
        for _ in range(self.chance(0, 0, 1, 2)):
            self.chance(self.calls, self.compute)(code, 0, task)
        if self.often(self.locks):
            self.call(code, "loc_spn", task)
        elif self.often(.3):
            self.call(code, self.chance("try_spn", "loc_cpu", "dis_dsp"), task)
        self.loop(code, task)
        if self.often(.5):
            self.calls(code, 0, task)
            self.call(code, self.chance(*["unl_spn"] * 4, *["unl_cpu", "ena_dsp"] * 2, "ext_ker"), task)
            self.loop(code, task)

    def manager_code(self, code, task):
        super().manager_code(code, task)
        if self.often(.3):
            self.call(code, "ext_ker", task)

    def handler_code(self, code, _):
        if self.standard and self.often(self.locks / 2):
            self.call(code, "iloc_spn", None)
        if self.often(.3):
            self.loop(code, None)
        super().handler_code(code, None)

    def loop(self, code, caller):
        """A loop, and what its registers are before."""
        for register in (*self.random.sample(READ, 2), self.random.choice(SCRATCH)):
            code.set(register, self.chance(0, 1, 5, self.random.getrandbits(32)))
        kinds = (self.still, self.long, self.rounds, self.function, self.waiting, self.other)
        self.random.choices(kinds, (2, 1, 2, 1, 7, 2))[0](code, caller)

    # Loops

    def still(self, code, *_):
        """Does the same in each round, of which nothing comes from memory."""
        top = code.here()
        for _ in range(self.chance(0, 0, 1, 2, 4)):
            self.chance(self.same, self.same, self.twice)(code)
        self.back(code, top)

    def long(self, code, *_):
        """About as many instructions as a loop may have to be told, most of which do nothing."""
        top = code.here()
        for _ in range(self.chance(60, 252, 253, 254, 254, 255, 255, 256)):
            code.add("SLL")
        code.back(top)

    def rounds(self, code, *_):
        """Has the same registers as before after some rounds."""
        turned = self.random.sample(TURNED, self.random.randrange(1, len(TURNED)))
        for value, register in enumerate(turned):
            code.set(register, value)
        top = code.here()
        self.chance(self.count, self.count, self.change, self.turn)(code, turned)
        for _ in range(self.chance(0, 0, 0, 1, 2)):
            self.same(code)
        self.back(code, top)

    def count(self, code, turned):
        """Counts up to a power of two."""
        code.add("ADDIU", rs=turned[0], rt=turned[0], immediate=self.chance(1, 1, 2, 3))
        code.add("ANDI", rs=turned[0], rt=turned[0], immediate=self.chance(1, 3, 7, 15, 31, 63, 63, 127))

    def change(self, code, turned):
        """Makes a word another one, and in the next round that one again."""
        one = turned[0]
        code.append(self.chance(encode("XORI", rs=one, rt=one, immediate=5), encode("NOR", rs=one, rd=one),
                                encode("SUBU", rt=one, rd=one)))

    def turn(self, code, turned):
        """Each register gets the next one's word, and the last one the first one's."""
        kept = self.random.choice(GIVEN)
        for one, its in zip([kept, *turned], [*turned, kept]):
            code.add("OR", rs=its, rd=one)

    def function(self, code, *_):
        """Calls a function that stands before it."""
        code.add("BEQ", immediate=3)
        self.slot(code)
        target = code.here()
        code.add("JR", rs=31)
        self.slot(code)
        top = code.here()
        code.append(encode("JAL") | target >> 2 & 0x3FFFFFF)
        self.slot(code)
        self.back(code, top)

    def waiting(self, code, *_):
        """Loads a word that others store, and goes back as long as it is so or so."""
        top, register = code.here(), self.random.choice(GIVEN)
        for _ in range(self.chance(0, 0, 1, 2)):
            self.chance(self.same, self.twice, self.left_out, self.load)(code)
        self.load(code, register)
        name = self.chance("BEQ", "BNE", "BEQL", "BNEL", "BGEZ", "BLTZ", "BGTZ", "BLEZL", "BGEZL")
        other = self.chance(0, *READ) if name.startswith(("BEQ", "BN")) else 0
        code.add(name, rs=register, rt=other, immediate=(top - code.here()) // 4 - 1)
        self.slot(code)
        if self.often(.5):
            code.back(top)

    def other(self, code, caller):
        """Nearly one that spins: it counts, stores, calls, or adds to HI and LO."""
        top, register = code.here(), self.random.choice(TURNED)
        for _ in range(self.chance(0, 1, 2)):
            self.chance(self.same, self.load)(code)
        self.chance(
            lambda: code.add("ADDIU", rs=register, rt=register, immediate=self.chance(1, -1, 4)),
            lambda: self.instruction(code, STORES),
            lambda: code.add("SC", rs=BASE, rt=register, immediate=self.random.choice(SHARED)),
            lambda: self.call(code, self.chance("get_pid", "rot_rdq", "iget_tid", "loc_spn", "iloc_spn"), caller),
            lambda: code.add(self.chance("MADD", "MADDU", "MSUB"), rs=self.chance(*READ), rt=self.chance(*READ)))()
        self.back(code, top)

    # What loops are made of

    def same(self, code):
        """An instruction that gives a register, or HI and LO, what comes of others that a loop only reads."""
        one, other, given = self.chance(*READ), self.chance(*READ), self.chance(*GIVEN)
        name = self.random.choice(self.chance(OF_WORDS, OF_IMMEDIATES, TO_HI_LO))
        if name in OF_IMMEDIATES:
            code.add(name, rs=0 if name == "LUI" else one, rt=given, immediate=self.chance(1, 7, 0x7FFF, 0xFFFF))
        elif name in ("MFHI", "MFLO"):
            code.add(name, rd=given)
        elif name in TO_HI_LO:
            code.add(name, rs=one, rt=0 if name.startswith("MT") else other)
        else:
            code.add(name, rs=one, rt=given if name == "CLZ" else other, rd=given)

    def load(self, code, register=None):
        """Of the words that programs share, or of their results."""
        name, at = self.random.choice(LOADS), self.chance(*SHARED, self.random.choice(RESULTS))
        code.add(name, rs=BASE, rt=register or self.random.choice(GIVEN), immediate=at)

    def twice(self, code):
        """An instruction that is executed in the slot of a branch which leads to it, and so once more."""
        code.add("BEQ", immediate=0)
        self.chance(lambda it: it.add("SLL"), self.same)(code)

    def left_out(self, code):
        """A store that isn't executed: over which a branch leads, or in the slot of a branch that isn't taken."""
        stored = encode(self.chance(*STORES, "SC"), rs=BASE, rt=8, immediate=self.random.choice(SHARED))
        if self.often(.5):
            code.add("BNEL", immediate=self.chance(1, 2))
        else:
            code.add("BEQ", immediate=2)
            code.add("SLL")
        code.append(stored)

    def slot(self, code):
        """What stands in the slot of a branch: now and then a store."""
        if self.often(.04):
            self.instruction(code, STORES)
        else:
            self.chance(lambda it: it.add("SLL"), lambda it: it.add("SLL"), self.same)(code)

    def back(self, code, top):
        """Goes back to an address, in one of several ways."""
        distance, target = (top - code.here()) // 4 - 1, top >> 2 & 0x3FFFFFF
        code.append(self.chance(
            encode("BEQ", immediate=distance), encode("BEQL", immediate=distance), encode("BGEZ", immediate=distance),
            encode("BGEZAL", immediate=distance), encode("J") | target, encode("JAL") | target))
        self.slot(code)
