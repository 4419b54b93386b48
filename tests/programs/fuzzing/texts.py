"""Random texts of the languages of `board`: most of their lines are right, so that more than a reader is met."""

REGISTERS = ("$0", "$1", "$8", "$t0", "$t9", "$s0", "$sp", "$ra", "$31", "$zero", "$s8")
LABELS = ("_start", "loop", "a", "b.c", "d$1", ".x")
# The operands of mnemonics: r a register, i an immediate, u one without a sign, s a shift, m an address, l a target.
OPERANDS = {
    "r, r, r": "add addu sub subu and or xor nor slt sltu mul movz movn sllv srlv srav",
    "r, r, i": "addi addiu slti sltiu", "r, r, u": "andi ori xori", "r, u": "lui", "r, r, s": "sll srl sra",
    "r, m": "lb lbu lh lhu lw lwl lwr sb sh sw swl swr ll sc", "r, r, l": "beq bne beql bnel",
    "r, l": "blez bgtz bltz bgez bltzal bgezal blezl bgtzl bltzl bgezl beqz bnez", "l": "j jal b bal",
    "r": "jr mfhi mflo mthi mtlo jalr", "": "nop syscall break sync",
    "r, r": "mult multu div divu clz clo move madd msub",
    "r, i": "teqi tnei tgei tlti",
}
INSTRUCTIONS = [(name, operands) for operands, names in OPERANDS.items() for name in names.split()]


class Texts:
    """Makes texts from one source of random numbers."""

    def __init__(self, random):
        self.random = random

    def often(self, probability):
        return self.random.random() < probability

    def among(self, *values):
        return self.random.choice(values)

    # Sources

    def operand(self, kind):
        label = self.random.choice(LABELS)
        if kind == "r":
            return self.random.choice(REGISTERS)
        if kind == "m":
            return f"{self.among('', '0', '4', '-4', f'%lo({label})', '32767')}({self.operand('r')})"
        if kind == "l":
            return self.among(label, label, label, f"{label}+4", "0x80000000")
        if kind == "s":
            return str(self.random.randrange(32))
        return self.among("0", "1", "7", "0x7f", "32767", f"%lo({label})") if kind == "i" \
            else self.among("0", "1", "0xffff", f"%hi({label})", "%hi(0x80001234)")

    def statement(self):
        if self.often(.75):
            name, operands = self.random.choice(INSTRUCTIONS)
            return f"{name} {', '.join(self.operand(kind) for kind in operands.split(', ') if kind)}".strip()
        label, number = self.random.choice(LABELS), self.random.randrange(200)
        return self.among(f".word {label}, {number}, -1", f".half {number}, 0xffff", f".byte {number}, 255", ".align 2",
                          f".space {4 * number}", f'.asciiz "x{number}\\n"\n.align 2', f".equ n{number}, {number}",
                          f".globl {label}", ".set noreorder", "# a comment", "",
                          f".org 0x{0x80001000 + 4096 * number:x}")

    def source(self):
        count = self.random.randrange(1, 60)
        lines = [f"        {self.statement()}" for _ in range(count)]
        for label in LABELS:
            if self.often(.97):
                lines.insert(self.random.randrange(len(lines) + 1), f"{label}:")
        if self.often(.3):
            # (mostly where it may stand)
            place = 0 if self.often(.8) else self.random.randrange(len(lines) + 1)
            lines.insert(place, f"{self.among('', '        ', '# first')}\n.byteorder {self.order()}")
        return "\n".join(lines + [""]).encode()

    def order(self):
        return self.among("little", "little", "little", "big", "big", "LITTLE", "middle", "", "little big")

    # Configurations

    def attributes(self, *names):
        return " | ".join(self.random.sample(names, self.random.randrange(1, len(names) + 1)))

    def object(self):
        random, order = self.random, self.among("TA_TFIFO", "TA_TPRI")
        number = random.randrange(1, 256)
        start = self.among("_start", "loop", "0x80000000", f"0x{0x80000000 + 4 * random.randrange(16384):x}", "a")
        return self.among(
            f"CRE_TSK({number}, {{{self.attributes('TA_HLNG', 'TA_ACT', 'TA_ACT', '0')}, {number}, {start}, "
            f"{random.randrange(1, 17)}, {random.choice((1, 16, 256, 4096))}, {self.among('NULL', '0x80004000')}}});",
            f"CRE_SEM({number}, {{{order}, {random.randrange(3)}, {self.among(2, 65535)}}});",
            f"CRE_FLG({number}, {{{self.attributes('TA_TPRI', 'TA_WMUL', 'TA_CLR')}, {random.randrange(4)}}});",
            f"CRE_DTQ({number}, {{{order}, {self.among(0, 1, 16, 256)}, NULL}});",
            f"CRE_SPN({number}, {{{self.among('TA_NULL', 'TA_NULL', '0')}}});",
            f"CRE_MTX({number}, {{{self.among('TA_TFIFO', 'TA_TPRI', 'TA_INHERIT', 'TA_CEILING')}, "
            f"{random.randrange(1, 17)}}});",
            f"CRE_MPF({number}, {{{order}, {random.randrange(1, 5)}, {self.among(1, 5, 64)}, "
            f"{self.among('NULL', 'NULL', '0x80004000', start)}}});",
            f"CRE_MBX({number}, {{{self.attributes('TA_TPRI', 'TA_MFIFO', 'TA_MPRI')}, {random.randrange(1, 17)}, "
            f"NULL}});",
            f"CRE_CYC({number % 64 + 1}, {{{self.attributes('TA_STA', 'TA_PHS')}, {number}, {start}, "
            f"{self.among(1, 2, 5, '0x7fffffff')}, {self.among(0, 1, 7)}}});",
            f"CRE_ALM({number % 64 + 1}, {{{self.attributes('TA_ASM')}, {number}, {start}}});",
            f"DEF_INH({random.randrange(32)}, {{TA_HLNG, {start}}});")

    def configuration(self):
        processors = self.among(1, 1, 2, 3, 8)
        lines = [self.among("", "", "", "PROFILE(STANDARD);", "PROFILE (STANDARD) ;")]
        lines.append(f"BOARD({processors}, 0x{self.among(1, 1, 1, 2, 16, 256):x}0000);")
        for _ in range(self.random.randrange(12)):
            line = self.object()
            if self.often(.4):
                line = f"CLASS(TCL_{self.random.randrange(1, processors + 1)}) {{ {line} /* on another */ }}"
            lines.append(line)
        return "\n".join(lines + [""]).encode()

    # Journals, scripts, commands, words

    def run(self, kinds):
        kind, count = self.random.choice(kinds), self.random.choice((1, 1, 2, 3, 7, 40, 300))
        number = f" {self.random.choice((1, 1, 1, 2, 3, 8, 0, 31, 255))}" if kind != "T" else ""
        return f"{kind}{number} {count}"

    def journal(self):
        runs = [self.run("SSSSSTR") for _ in range(self.random.choice((0, 1, 5, 40)))]
        first = self.among("board-journal 1", "board-journal 2 big", "board-journal 2 little", "board-journal 2")
        return "\n".join([first, *runs, ""]).encode()

    def script(self):
        return "".join(f"{self.run('TTR')}\n" for _ in range(self.random.choice((0, 1, 5, 20)))).encode()

    def commands(self):
        lines = []
        for _ in range(self.random.randrange(25)):
            address = 0x80000000 + self.random.choice((4, 1, 4096)) * self.random.randrange(64)
            position, processor = self.random.randrange(200), self.random.randrange(1, 9)
            lines.append(self.among("next", "back", "next", "back", f"goto {position}", f"mem {address:08x}",
                                    f"regs {processor}", f"break {address:08x}", f"watch {address:08x}"))
        if self.often(.2):
            lines.insert(self.random.randrange(len(lines) + 1), "quit")
        return "\n".join(lines + [""]).encode()

    def packets(self):
        """Packets as GDB sends them, a few of them damaged, in most of the texts up to the one by which it leaves."""
        made = [b"$QStartNoAckMode#b0"] if self.often(.5) else []
        for _ in range(self.random.randrange(40)):
            address = 0x80000000 + self.random.choice((4, 1, 4096)) * self.random.randrange(64)
            thread, length = self.among("-1", "0", "1", "2", "8", "9"), self.random.choice((1, 4, 8, 64, 0xffffffff))
            packet = self.among(
                "?", "g", "qC", "qfThreadInfo", "qsThreadInfo", "vCont?", "c", "s", "bc", "bs", "bc", "bs", "vCont;c",
                f"vCont;s:{thread};c", f"vCont;s:{thread}", f"vCont;r{address:x},{address + 8:x}:{thread};c",
                f"vCont;rffffffff{address:x},ffffffff{address + 8:x}:{thread};c", "vCont;C05:1;c", "vCont;t",
                f"p{self.random.randrange(80):x}", f"m{address:x},{length:x}", f"M{address:x},1:00", "G00",
                f"Hg{thread}", f"Hc{thread}", f"T{thread}", f"qThreadExtraInfo,{thread}",
                f"Z{self.random.randrange(6)},{address:x},4", f"z{self.random.randrange(6)},{address:x},4",
                "qSupported:multiprocess+", "qXfer:features:read:target.xml:0,ffb", "qXfer:threads:read::0,1000",
                "qRcmd," + self.among("goto 9", "where", "tasks", "objects", "console", "trace 5", "summary", "help",
                                      "goto 01", "x").encode().hex(), "vMustReplyEmpty", "qAttached", "!", "",
            ).encode()
            total = sum(packet) % 256 if self.often(.95) else self.random.randrange(256)
            made.append(b"$" + packet + f"#{total:02x}".encode() + self.among(b"", b"", b"+", b"-", b"\x03"))
        return b"".join(made + [self.among(b"$D#44", b"$k#6b", b"$vKill;1#6e", b"")])

    def words(self):
        known = (0x24080005, 0x10000002, 0x25080001, 0x25080064, 0x01084821, 0x1000FFFF, 0x0000000C, 0xAC080000)
        made = [self.random.choice(known) if self.often(.7) else self.random.getrandbits(32)
                for _ in range(self.random.choice((0, 1, 9, 80)))]
        return self.among(" ", "\n", "\r\n ").join(f"{word:08x}" for word in made).encode()

    # Options of trace, arguments of journal

    def number(self):
        """A number, now and then one that isn't right."""
        return self.among(*map(str, (0, 1, 2, 3, 5, 9, 30, 200, 5000)), str(self.random.randrange(40)),
                          self.among("4194304", "4294967295", "4294967296", "18446744073709551615", str(10 ** 22), "-1",
                                     "x", "", "01", "+3", "1.5"))

    def trace_options(self):
        words = []
        for option, chosen in (("--from", .3), ("--to", .4), ("--cpu", .25)):
            if self.often(chosen):
                words += [option, self.number()]
        if self.often(.4):
            words.append("--instructions")
        if self.often(.2):
            words += ["--word", self.among("0x80000000", "0x80000100,0x80000104", "0x80000002", "main", "", "0x", ",")]
        if self.often(.2):
            words.append("--summary")
        if self.often(.6):
            words += ["--format", self.among("text", "json", "json", "svg", "svg", "SVG", "xml", "")]
        if self.often(.05):
            words.append(self.among("--instructions", "--summary", "--steps", "--from", "-", "--format=json"))
        return words

    def journal_options(self, cpus):
        """Options that mostly go together."""
        if self.often(.4):
            return ["--turn", self.number()] if self.often(.7) else []
        words = ["--random", self.among(self.number(), str(self.random.getrandbits(64)))]
        if self.often(.3):
            return words + ["--pct", self.number()]
        if self.often(.5):
            words += ["--switch", self.among("0", "1", "50", "500", "1000", self.number())]
        if self.often(.4):
            weights = [self.among("0", "1", "3", "1000000", self.number()) for _ in range(cpus)]
            words += ["--weights", ",".join(weights)]
        return words

    def journal_arguments(self):
        count = self.among(1, 2, 2, 3, 4, 8)
        cpus = str(count) if self.often(.9) else self.number()
        words = [cpus, self.among("0", "1", "7", "150", "2000", "30000", self.number()), *self.journal_options(count)]
        if self.often(.4):
            words += ["--tick-every", self.among("1", "2", "10", "100", self.number())]
        if self.often(.3):
            count = self.among(1, 2, 5)
            raises = [f"{self.random.randrange(32)}@{self.random.randrange(1, 200)}" for _ in range(count)]
            wrong = self.among("4", "4@", "@4", "256@1", "4@0", "", ",")
            words += ["--raise", ",".join(raises) if self.often(.8) else wrong]
        if self.often(.3):
            words += ["--order", self.among("big", "little", "little", "middle")]
        if self.often(.05):
            words += self.among(["--pct", "3"], ["--turn", "1"], ["--switch", "1"], ["--format", "svg"], ["x"])
        return words

    # Options of explore and shrink

    def look_options(self):
        words = []
        for option in ("--exception", "--deadlock", "--ends"):
            if self.often(.25):
                words.append(option)
        if self.often(.3):
            words += ["--word", self.among("0x80000000=1", "0x80000040=0..1", "_start=0", "x=1", "=", "0x80000000=1,",
                                           "0x80000000=2..1", "0x80000000=0..4294967295")]
        if self.often(.3):
            words += ["--console", self.among("", "A", "AB\\n", "\\x41", "\\", "\\x4", "\\q")]
        if self.often(.2):
            words += ["--fair", self.among("0", "1", "2", "20001", self.number()[:2])]
        if self.often(.6):
            words += ["--out", "out.journal"]
        return words

    def search_options(self):
        words = ["--events", self.among("0", "1", "7", "20", "60", "1000001", "x")]
        for option, values in (("--preemptions", ("0", "1", "1", "4294967296")), ("--ticks", ("0", "1", "-1")),
                               ("--raises", ("0", "1", "0..1", "2..1", "1.", "")),
                               ("--lines", ("0", "3,4", "31", "32", "", "3,", "3,3")),
                               ("--shard", ("1/1", "2/3", "0/2", "3/2", "1", "/")), ("--remember", ("0", "1", "4097")),
                               ("--threads", ("0", "1", "3", "64", "65"))):
            if self.often(.3):
                words += [option, self.among(*values)]
        if self.often(.2):
            words.append("--shortest")
        return words + self.look_options()

    # Command lines

    def arguments(self):
        """A command line, mostly a wrong one. No name has a slash in it, so that files are made in one folder alone."""
        words = ("words", "asm", "run", "debug", "gdb", "race", "trace", "journal", "explore", "shrink", "help", "-h",
                 "--help", "--version", "-V", "--", "-", "", "x", "1", "-1", "1000001", "18446744073709551616",
                 "--STEPS", "--steps=1", "\x1b[31m", "a\nb", "a\tb",
                 "--from", "--format", "--random", "--raise", "--summary", "--instructions", "--cpu=1",
                 "\u00e9\u202e", "x" * 4000, "image.elf", "board.cfg", "board.journal", "source.s", "%s%n", "{}", "'")
        made = [self.random.choice(words).encode() for _ in range(self.random.choice((0, 1, 1, 2, 2, 3, 4, 5, 9)))]
        if made and self.often(.3):
            made[0] = self.random.choice((b"words", b"asm", b"run", b"debug", b"gdb", b"trace", b"journal", b"explore",
                                          b"shrink", b"help"))
        if made and self.often(.1):
            made[self.random.randrange(len(made))] = self.random.randbytes(6).replace(b"\0", b"").replace(b"/", b"_")
        return made
