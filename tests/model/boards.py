"""Random boards of the model: configuration, program, journal, and commands for the debugger, all of a seed.

A board has workers, which call, wait, compute, and use LL and SC in an endless loop; mostly a manager, a task of low
priority that never waits, which starts, wakes, moves and ends the others; and handlers of interrupts. It has a theme,
whose calls come more often than the others, so that queues of waiting tasks grow long and rare states meet.
"""
import random
import struct

from kernel import CALLS, AlarmSetup, CyclicSetup, PoolSetup, Setup, TaskSetup, distance
from machine import RAM_START, ROWS, WORD, encode

DATA = RAM_START + 0x8000
# Where programs share words, two in most blocks of 16 bytes; and where they leave results, after them.
SHARED, RESULTS = (0, 4, 8, 12, 16, 20, 32), range(64, 320, 4)
BASE, SCRATCH = 16, (8, 9, 10, 11, 12, 13, 14, 15, 18, 19, 20, 21, 24, 25)
NUMBERS = {call.name: number for number, call in CALLS.items()}

# call: how often a worker makes it, a manager, a handler; what its arguments are
USES = {
    "act_tsk": (8, 20, .1, "task"), "can_act": (1, 1, 0, "task"), "ext_tsk": (.6, 0, .1, ""),
    "ter_tsk": (1, 4, 0, "other"), "chg_pri": (3, 6, 0, "task priority"), "get_pri": (1, 1, .1, "task"),
    "mact_tsk": (3, 6, 0, "other processor"), "mig_tsk": (2, 4, 0, "other processor"), "get_pid": (.5, .5, 0, ""),
    "rot_rdq": (2, 2, 0, "priority"), "get_tid": (.5, .5, .1, ""), "dis_dsp": (1.5, 2, 0, ""),
    "ena_dsp": (1, 1, 0, ""), "loc_cpu": (1.5, 2, .1, ""), "unl_cpu": (1, 1, 0, ""),
    "slp_tsk": (5, 0, .1, ""), "tslp_tsk": (6, .2, 0, "timeout"), "wup_tsk": (4, 8, 0, "task"),
    "can_wup": (1, 1, 0, "task"), "rel_wai": (2, 4, 0, "task"), "sus_tsk": (1.5, 4, 0, "other"),
    "rsm_tsk": (4, 8, 0, "task"), "dly_tsk": (5, .2, 0, "time"), "sig_sem": (4, 4, 0, "semaphore"),
    "wai_sem": (5, 0, .1, "semaphore"), "pol_sem": (1.5, 1, 0, "semaphore"),
    "twai_sem": (6, .2, 0, "semaphore timeout"),
    "set_flg": (4, 5, 0, "flag bits"), "clr_flg": (1.5, 2, 0, "flag kept"), "wai_flg": (5, 0, 0, "flag bits mode"),
    "pol_flg": (2, 1, 0, "flag bits mode"), "twai_flg": (6, .2, 0, "flag bits mode timeout"),
    "snd_dtq": (5, 0, 0, "queue datum"), "psnd_dtq": (2, 3, 0, "queue datum"),
    "tsnd_dtq": (6, .2, 0, "queue datum timeout"),
    "fsnd_dtq": (2, 2, 0, "queue datum"), "rcv_dtq": (5, 0, 0, "queue"), "prcv_dtq": (2, 3, 0, "queue"),
    "trcv_dtq": (6, .2, 0, "queue timeout"), "put_chr": (.5, .5, .2, "datum"), "ext_ker": (.04, 0, .1, ""),
    "iact_tsk": (.3, .1, 5, "task"), "iwup_tsk": (.1, .1, 4, "task"), "irel_wai": (.1, .1, 3, "task"),
    "isig_sem": (.1, .1, 4, "semaphore"), "iset_flg": (.1, .1, 4, "flag bits"), "ipsnd_dtq": (.1, .1, 3, "queue datum"),
    "ifsnd_dtq": (.1, .1, 2, "queue datum"), "irot_rdq": (.1, .1, 2, "priority"), "iget_tid": (.1, .1, 1, ""),
    "imact_tsk": (.1, .1, 3, "other processor"), "ret_int": (.1, .1, .5, ""), "unknown": (.1, .1, .1, ""),
    "loc_spn": (5, 2, .1, "lock"), "try_spn": (2, 1, .1, "lock"), "unl_spn": (.5, .3, .1, "lock"),
    "get_tim": (.3, .3, .1, ""), "set_tim": (.1, .2, .1, "datum"), "sns_ctx": (.1, .1, .3, ""),
    "sns_loc": (.2, .2, .1, ""), "sns_dsp": (.2, .2, .1, ""), "sns_dpn": (.2, .2, .1, ""),
    "frsm_tsk": (.3, 1, .1, "task"), "mget_tid": (.2, .4, .1, "processor"),
    "mrot_rdq": (.2, .5, .1, "priority processor"),
    "ref_tsk": (.5, 2, .1, "task word"), "ref_sem": (.3, .5, .1, "semaphore word"),
    "loc_mtx": (5, 0, .1, "mutex"), "ploc_mtx": (1, 1, .1, "mutex"), "tloc_mtx": (5, .2, .1, "mutex timeout"),
    "unl_mtx": (5, 1, .1, "mutex"), "ref_mtx": (.3, .5, .1, "mutex word"),
    "get_mpf": (5, 0, .1, "pool"), "pget_mpf": (2, 1, .1, "pool"), "tget_mpf": (5, .2, .1, "pool timeout"),
    "rel_mpf": (6, 4, .1, "pool block"), "snd_mbx": (4, 4, .1, "mailbox datum rank"),
    "isnd_mbx": (.1, .1, 3, "mailbox datum rank"), "rcv_mbx": (5, 0, .1, "mailbox"),
    "prcv_mbx": (1, 1, .1, "mailbox"), "trcv_mbx": (5, .2, .1, "mailbox timeout"),
    "ref_mpf": (.3, .5, .1, "pool word"), "ref_mbx": (.3, .5, .1, "mailbox word"),
    "ref_flg": (.3, .5, .1, "flag word"), "ref_dtq": (.3, .5, .1, "queue word"), "iget_pid": (.1, .1, .5, ""),
    "sta_cyc": (2, 3, .1, "cyclic"), "stp_cyc": (.3, .8, .1, "cyclic"), "ref_cyc": (.3, .5, .1, "cyclic word"),
    "sta_alm": (3, 5, .1, "alarm delay"), "ista_alm": (.1, .1, 2, "alarm delay"), "stp_alm": (.3, .5, .1, "alarm"),
    "istp_alm": (.1, .1, .5, "alarm"), "ref_alm": (.3, .5, .1, "alarm word"),
    "iloc_cpu": (.1, .1, 1, ""), "iunl_cpu": (.1, .1, .5, ""), "iloc_spn": (.1, .1, 2, "lock"),
    "itry_spn": (.1, .1, 1, "lock"), "iunl_spn": (.1, .1, .3, "lock"),
}
THEMES = {
    "everything": "", "links": "", "sleep": "slp_tsk tslp_tsk wup_tsk can_wup rel_wai sus_tsk rsm_tsk iwup_tsk",
    "semaphore": "sig_sem wai_sem twai_sem pol_sem isig_sem rel_wai chg_pri sus_tsk rsm_tsk",
    "flag": "set_flg clr_flg wai_flg twai_flg pol_flg iset_flg rel_wai chg_pri sus_tsk rsm_tsk",
    "queue": "snd_dtq tsnd_dtq psnd_dtq fsnd_dtq prcv_dtq ipsnd_dtq ifsnd_dtq rel_wai chg_pri sus_tsk rsm_tsk",
    "receivers": "rcv_dtq trcv_dtq psnd_dtq prcv_dtq ipsnd_dtq rel_wai chg_pri sus_tsk rsm_tsk",
    "tasks": "act_tsk can_act ter_tsk chg_pri get_pri mact_tsk mig_tsk rot_rdq irot_rdq imact_tsk iact_tsk",
    "held": "dis_dsp loc_cpu ter_tsk mig_tsk sus_tsk rsm_tsk act_tsk",
    "lock": "loc_spn try_spn unl_spn dis_dsp loc_cpu ter_tsk",
    "locked handlers": "loc_spn try_spn unl_spn loc_cpu iloc_cpu iunl_cpu iloc_spn itry_spn sns_loc sns_dpn",
    "mutex": "loc_mtx tloc_mtx ploc_mtx unl_mtx ref_mtx chg_pri get_pri rel_wai ter_tsk sus_tsk rsm_tsk",
    "pool": "get_mpf tget_mpf pget_mpf rel_mpf ref_mpf chg_pri rel_wai ter_tsk sus_tsk rsm_tsk",
    "mailbox": "snd_mbx isnd_mbx prcv_mbx ref_mbx chg_pri rel_wai sus_tsk rsm_tsk",
    "messages": "rcv_mbx trcv_mbx prcv_mbx isnd_mbx ref_mbx chg_pri rel_wai sus_tsk rsm_tsk",
    "profile": "get_tim set_tim sns_loc sns_dsp sns_dpn frsm_tsk mget_tid mrot_rdq ref_tsk ref_sem ref_flg ref_dtq",
    "times": "sta_cyc stp_cyc ref_cyc sta_alm stp_alm ref_alm ista_alm istp_alm dis_dsp loc_cpu dly_tsk",
}
# Loads and stores, and what their addresses have to be multiples of.
SIZES = {name: 1 for name in ("LB", "LBU", "SB", "LWL", "LWR", "SWL", "SWR")}
SIZES |= {"LH": 2, "LHU": 2, "SH": 2, "LW": 4, "SW": 4}
BRANCHES = [name for name in ROWS if name.startswith("B") and name != "BREAK"]
RISKY = [name for name in ROWS if name.startswith("T")] + ["ADD", "ADDI", "SUB"]
PLAIN = [name for name in ROWS if name not in (*BRANCHES, *RISKY, *SIZES, *"J JAL JR JALR SYSCALL BREAK LL SC".split())]


class Program(list):
    """The words of a program, from its first address on."""

    def __init__(self, address):
        super().__init__()
        self.address = address

    def here(self):
        return self.address + 4 * len(self)

    def add(self, mnemonic, **fields):
        self.append(encode(mnemonic, **fields))

    def set(self, register, value):
        """Gives a register a word, by one instruction or two."""
        if value < 0x8000 or value >= 0xFFFF8000:
            self.add("ADDIU", rt=register, immediate=value)
        else:
            self.add("LUI", rt=register, immediate=value >> 16)
            self.add("ORI", rs=register, rt=register, immediate=value)

    def back(self, address):
        """Goes back to an address."""
        self.add("BEQ", immediate=(address - self.here()) // 4 - 1)
        self.add("SLL")


class Maker:
    """Makes the board of a seed: `setup`, `image`, `configuration`, and `journal`, the text of `runs`."""

    def __init__(self, seed):
        self.random = random.Random(seed)
        self.order = self.chance("big", "little")
        self.theme = self.random.choice(list(THEMES))
        self.stray, self.faults = self.chance(.1, .02, .05, .25), self.chance(0, .01, .02, .05)
        self.shape()
        self.write_program()
        self.write_configuration()
        self.write_image()
        self.runs = list(self.events())
        self.journal = self.journal_text()

    def chance(self, *among):
        return self.random.choice(among)

    def often(self, probability):
        return self.random.random() < probability

    def ids(self, count):
        return self.random.sample(range(1, 256) if self.often(.5) else range(1, 16), count)

    def shape(self):
        """Which processors, tasks, objects and lines there are."""
        alone = self.often(.25) and self.theme not in ("links", "held", "lock", "locked handlers")
        of_the_profile = "profile", "mutex", "pool", "mailbox", "messages", "times", "locked handlers"
        self.standard = self.theme in of_the_profile or self.often(.5)
        self.processors = 1 if alone else self.chance(2, 2, 2, 2, 3, 3, 4, 8)
        self.tasks = self.ids(self.random.randrange(4, 11))
        priorities = self.random.sample(range(1, 17), self.random.randrange(2, 6))
        self.priority = {task: self.random.choice(priorities) for task in self.tasks}
        self.manager = self.tasks[0] if self.often(.9) or self.theme == "links" else None
        # (the last processor is mostly left to the manager, so that it comes to run)
        last = self.processors - 1 if self.processors > 1 and self.manager and self.often(.7) else self.processors
        self.place = {task: self.random.randrange(1, last + 1) for task in self.tasks}
        if self.manager:
            self.priority[self.manager], self.place[self.manager] = self.chance(16, max(priorities)), self.processors
        self.others = [task for task in self.tasks if task != self.manager]
        of_themes = {"mutex": self.chance(1, 2, 2, 3)} | dict.fromkeys(
            ["semaphore", "flag", "queue", "receivers", "lock", "locked handlers", "pool", "mailbox", "messages"], 1)
        count = of_themes.get(self.theme) or self.chance(0, 1, 1, 2)
        self.semaphores = {key: self.new_semaphore() for key in self.ids(count)}
        self.flags = {key: self.new_flag() for key in self.ids(count)}
        self.queues = {key: (self.often(.6), self.chance(0, 0, 1, 1, 2, 3, 256)) for key in self.ids(count)}
        self.spin_locks = self.ids(count)
        self.mutexes = {key: self.new_mutex() for key in self.ids(count)} if self.standard else {}
        self.pools = {key: self.new_pool() for key in self.ids(count)} if self.standard else {}
        self.mailboxes = {key: self.new_mailbox() for key in self.ids(count)} if self.standard else {}
        lines = self.random.sample(range(32), self.random.randrange(2 if self.theme == "locked handlers" else 0, 5))
        self.lines = {line: self.random.randrange(1, self.processors + 1) for line in lines}
        kinds = 1 if self.theme == "times" else 0
        counts = (self.chance(kinds, kinds, 1, 2, 3) if self.standard else 0 for _ in range(2))
        self.cyclics, self.alarms = ({key: self.random.randrange(1, self.processors + 1) for key in self.time_ids(it)}
                                     for it in counts)

    def time_ids(self, count):
        """IDs of time handlers."""
        return self.random.sample(self.chance(range(1, 65), range(1, 9)), count)

    def new_semaphore(self):
        maximum = self.chance(1, 1, 2, 3, 65535)
        return self.often(.6), self.chance(0, 0, 0, 1, maximum), maximum

    def new_flag(self):
        return self.often(.6), self.often(.8), self.often(.5), self.chance(0, 0, 0, 1, 5, WORD)

    def new_mutex(self):
        protocol = self.chance(0, 1, 2, 2, 2, 3)
        return protocol, self.random.randrange(int(protocol == 3), 17)

    def new_pool(self):
        area = self.chance(None, RAM_START + 0xC000 + 0x100 * self.random.randrange(4))
        return PoolSetup(self.often(.6), self.chance(1, 1, 2, 2, 3, 5), self.chance(1, 3, 4, 5, 16, 100), area)

    def new_mailbox(self):
        return self.often(.6), self.often(.6), self.chance(1, 2, 3, 16)

    # Calls

    def argument(self, kind, caller):
        """A value for an argument, sometimes a stray one. The manager doesn't end, suspend or move itself."""
        if self.often(self.stray / 2):
            return self.chance(0, 0, 2, 17, 255, 256, self.processors + 1, WORD, WORD - 1, 0x80000000, 0x10001)
        known = {"semaphore": self.semaphores, "flag": self.flags, "queue": self.queues,
                 "lock": self.spin_locks, "mutex": self.mutexes, "pool": self.pools, "mailbox": self.mailboxes,
                 "cyclic": self.cyclics, "alarm": self.alarms}.get(kind)
        if known is not None:
            return self.chance(*(known or [1]))
        # (None is the second result of the call before, which may be the address of a block)
        blocks = [it.area + number * distance(it) for it in self.pools.values() if it.area
                  for number in range(it.count)] or [RAM_START]
        if kind in ("task", "other"):
            itself = self.often(.2) and not (kind == "other" and caller == self.manager)
            among = self.tasks if kind == "task" else self.others
            return self.chance(0, caller or 0) if itself else self.chance(*among)
        return {
            "processor": lambda: self.random.randrange(1, self.processors + 1),
            "priority": lambda: self.chance(0, 0, 0, *self.priority.values(), self.random.randrange(1, 17)),
            "timeout": lambda: self.chance(0, 1, 1, 2, 2, 3, 3, 4, 6, 10, 20, WORD),
            "time": lambda: self.chance(0, 0, 1, 1, 2, 3, 4),
            "delay": lambda: self.chance(0, 0, 1, 1, 2, 3, 5, 0x7FFFFFFF, 0x80000000),
            "bits": lambda: self.chance(1, 1, 2, 2, 3, 4, 5, 6, 7, 8, 0x80000000),
            "kept": lambda: self.chance(0, 0, 1, 0xFFFFFFFE, 0xFFFFFFFC),
            "mode": lambda: self.chance(0, 1),
            "word": lambda: self.chance(0, 0, 1, 1, 2, 3, 4, 5, 6, 7, 8, 9),
            "block": lambda: self.chance(*[None] * len(blocks), *blocks),
            "rank": lambda: self.chance(1, 1, 2, 3, 4, self.random.randrange(17)),
            "datum": lambda: self.chance(self.random.randrange(256), self.random.getrandbits(32)),
        }[kind]()

    def call(self, code, name, caller, given=()):
        """A service call, sometimes in a delay slot, and something that shows its answers. Gives its arguments."""
        arguments = list(given) or [self.argument(kind, caller) for kind in USES[name][3].split()]
        if given and name == "rel_mpf":
            arguments = [given[0], None]
        for register, value in enumerate(arguments, 4):
            if value is None:
                code.add("ADDU", rs=3, rd=register)
            else:
                code.set(register, value)
        code.set(2, NUMBERS.get(name) or self.chance(0, 42, 47, 59, 63, 106, 111, 0x101))
        if self.often(.08):
            branch = self.chance("BEQ", "BEQ", "BGEZAL", "BNE", "BEQL")
            code.add(branch, immediate=self.random.randrange(1, 4))
        code.add("SYSCALL", rs=self.chance(0, 0, 0, 31))
        for register in (2, 3):
            if self.often(.2):
                code.add("SW", rs=BASE, rt=register, immediate=self.random.choice(RESULTS))
            if self.often(.1) and caller:
                code.add("ADDU", rs=register, rd=4)
                code.set(2, NUMBERS["put_chr"])
                code.add("SYSCALL")
        return arguments

    def calls(self, code, who, caller):
        """A call that a worker (0), a manager (1) or a handler (2) makes; what holds a processor mostly ends soon."""
        name, = self.random.choices(list(USES), self.weights[who])
        arguments = self.call(code, name, caller)
        end = {"dis_dsp": "ena_dsp", "loc_cpu": "unl_cpu", "loc_spn": "unl_spn", "try_spn": "unl_spn",
               "loc_mtx": "unl_mtx", "ploc_mtx": "unl_mtx", "tloc_mtx": "unl_mtx",
               "get_mpf": "rel_mpf", "pget_mpf": "rel_mpf", "tget_mpf": "rel_mpf"}.get(name)
        of_handlers = {"iloc_cpu": "iunl_cpu", "iloc_spn": "iunl_spn", "itry_spn": "iunl_spn"}.get(name)
        if who == 2 and of_handlers and self.often(.5):
            for _ in range(self.random.randrange(3)):
                self.chance(self.compute, self.calls)(code, who, caller)
            if self.often(.05):
                self.fail(code)
            self.call(code, of_handlers, caller, arguments)
        if end and who < 2 and self.often({"rel_mpf": .5, "unl_mtx": .8}.get(end, .9)):
            for _ in range(self.random.randrange(4)):
                self.chance(self.compute, self.calls)(code, who, caller)
            if who == 0 and end == "unl_mtx" and self.often(.6):
                # (who waits with a mutex lets others come to wait for it, some of them with another one)
                self.call(code, self.chance("dly_tsk", "tslp_tsk", "loc_mtx"), caller)
            if who == 0 and self.often(.15):
                self.chance(self.fail, lambda code: self.call(code, "ext_tsk", caller))(code)
            self.call(code, end, caller, arguments)

    # Instructions

    def instruction(self, code, names=PLAIN):
        """One instruction of some rows, with registers that no other part needs."""
        name = self.random.choice(names)
        zero = ROWS[name][2].split()
        fields = {field: self.random.choice(SCRATCH) for field in ("rs", "rt", "rd") if field not in zero}
        opcode, has_code = ROWS[name][0], ROWS[name][1] is not None
        if "rt=rd" in zero:
            fields["rt"] = fields["rd"]
        if name in SIZES:
            offset = self.chance(*SHARED, *RESULTS) + self.random.randrange(4)
            fields = {"rs": BASE, "rt": fields["rt"], "immediate": offset - offset % SIZES[name]}
        elif opcode == 1:
            fields = {"rs": fields["rs"], "immediate": self.random.getrandbits(16)}
        elif not has_code:
            fields = {**fields, "rd": 0, "immediate": self.chance(0, 1, 0x7FFF, 0x8000, self.random.getrandbits(16))}
        elif "sa" not in zero:
            fields["sa"] = self.random.randrange(32)
        code.add(name, **fields)

    def branch(self, code):
        """A branch or a jump over a few words, with something in its slot."""
        kind, over = self.chance("branch", "branch", "branch", "jump", "register"), self.random.randrange(1, 4)
        name = self.random.choice(BRANCHES)
        if kind == "branch":
            zero = "rt" in ROWS[name][2] or ROWS[name][0] == 1
            code.add(name, rs=self.random.choice(SCRATCH), rt=0 if zero else self.chance(0, *SCRATCH), immediate=over)
        elif kind == "jump":
            target = code.here() + 4 + 4 * over
            code.append(encode(self.chance("J", "JAL")) | target >> 2 & 0x3FFFFFF)
        else:
            register = self.random.choice(SCRATCH)
            code.set(register, code.here() + 12 + 4 * over)
            link = self.chance(31, register)
            code.append(self.chance(encode("JR", rs=register), encode("JALR", rs=register, rd=link)))
        self.instruction(code, self.chance(PLAIN, list(SIZES)))
        for _ in range(over):
            self.instruction(code)

    def compute(self, code, *_):
        for _ in range(self.random.randrange(1, 4)):
            choice = self.random.random()
            if choice < .2:
                value = self.chance(0x7FFFFFFF, WORD, 0x80000000, self.random.getrandbits(32))
                code.set(self.random.choice(SCRATCH), value)
            elif choice < .6:
                self.instruction(code)
            elif choice < .85:
                self.instruction(code, list(SIZES))
            else:
                self.branch(code)

    def conditional(self, code, caller):
        """LL, mostly, something that may end the link, and SC, mostly of the same word; perhaps another SC."""
        at, register = self.chance(*[0] * (12 if self.theme == "links" else 2), *SHARED), self.random.choice(SCRATCH)
        if self.often(.85):
            code.add("LL", rs=BASE, rt=register, immediate=at)
        for _ in range(self.chance(0, 1, 2, 3, 9) if self.theme == "links" else self.random.randrange(3)):
            if self.often(.15):
                code.add("SW", rs=BASE, rt=self.random.choice(SCRATCH), immediate=self.random.choice(SHARED))
            elif self.often(.1):
                self.call(code, self.chance("get_pid", "rot_rdq", "can_act", "loc_spn"), caller)
            else:
                code.add("ADDIU", rs=register, rt=register, immediate=1)
        for place in self.chance([at], [at], [at], [self.random.choice(SHARED), at]):
            code.add("SC", rs=BASE, rt=register, immediate=place)
            code.add("SW", rs=BASE, rt=register, immediate=self.random.choice(RESULTS))

    def fail(self, code):
        """Something that raises an exception."""
        kind, register = self.chance(0, 1, 2, 3, 4, 5, 5, 5, 6), self.random.choice(SCRATCH)
        if kind == 0:
            code.add("BREAK", rs=self.random.randrange(32))
        elif kind == 1:
            code.add(self.chance("LW", "SW", "LL", "SC", "LH", "SH"), rs=BASE, rt=register, immediate=self.chance(1, 3))
        elif kind == 2:
            code.add(self.chance("LB", "SB", "LWL", "SWR", "SC", "LHU"), rt=register, immediate=self.chance(0, 0x1000))
        elif kind == 3:
            code.set(register, self.chance(2, 0x7FFFFFFC, 0x90000000))
            code.add("JR", rs=register)
            code.add("SLL")
        elif kind == 4:
            code.add("BEQ", rt=self.chance(0, register), immediate=2)
            code.append(self.chance(encode("BREAK"), encode("BNE", immediate=1), encode("JR", rs=31)))
        elif kind == 5:
            name = self.random.choice([name for name in ROWS if ROWS[name][2]])
            shifts = {"rs": 21, "rt": 16, "rd": 11, "sa": 6, "rt=rd": 11}
            word = encode(name) | self.random.randrange(1, 32) << shifts[self.chance(*ROWS[name][2].split())]
            code.append(self.chance(word, word, WORD, 1))
        else:
            code.set(8, self.chance(0x7FFFFFFF, 0x80000000, 0, 1))
            code.set(9, self.chance(0x7FFFFFFF, 1, WORD, 0))
            self.instruction(code, RISKY)

    # Programs

    def worker(self, code, task):
        if self.often(.7):
            code.set(self.random.choice(SCRATCH), self.random.getrandbits(32))
        talks = self.chance(.3, .7, .9)
        for _ in range(self.chance(2, 4, 8, 12, 20)):
            if self.theme == "links" and self.often(.8) or self.often(.05):
                self.conditional(code, task)
            elif self.often(talks):
                self.calls(code, 0, task)
            else:
                self.compute(code)
            if self.often(self.faults):
                self.fail(code)
        if self.often(.7) and self.theme != "links":
            self.call(code, self.chance("dly_tsk", "tslp_tsk", "ext_tsk"), task)

    def manager_code(self, code, task):
        for _ in range(self.chance(10, 20, 40)):
            if self.theme == "links" and self.often(.6):
                self.restart(code, task)
            elif self.often(.85):
                self.calls(code, 1, task)
            else:
                self.chance(self.compute, self.conditional)(code, task)

    def restart(self, code, task):
        """Ends a task that has a request, or stores into a block that may be linked."""
        other = self.random.choice(self.others)
        kind = self.random.randrange(4)
        for name in [("act_tsk", "ter_tsk"), ("sus_tsk", "rsm_tsk"), ("mact_tsk", "ter_tsk"), ()][kind]:
            code.set(4, other)
            code.set(5, self.place[other])
            code.set(2, NUMBERS[name])
            code.add("SYSCALL")
        if kind == 3:
            self.instruction(code, ["SB", "SH", "SW", "SWL", "SWR"])
            code.add("SB", rs=BASE, rt=8, immediate=self.random.choice(SHARED) + self.random.randrange(4))

    def handler_code(self, code, _):
        for _ in range(self.chance(0, 1, 1, 2, 3)):
            self.calls(code, 2, None)
            if self.often(.3):
                self.chance(self.compute, self.conditional)(code, None)
            if self.often(self.faults / 4):
                self.fail(code)
        self.call(code, "ret_int", None)

    def handlers(self):
        """All handlers, by their kinds and lines or IDs."""
        kinds = ("line", self.lines), ("cyclic", self.cyclics), ("alarm", self.alarms)
        return [(kind, key) for kind, its in kinds for key in its]

    def write_program(self):
        """Lays down the program of each task and each handler, an endless loop each."""
        # (workers of a theme wait most of all, so that several come to wait at once)
        more = {name: 20 if USES[name][0] >= 5 else 4 for name in THEMES[self.theme].split()}
        self.weights = [[use[who] * (more.get(name, 1) if who == 0 else 10 if name in more else 1)
                         for name, use in USES.items()] for who in range(3)]
        code = Program(RAM_START + self.chance(0, 0x40))
        self.start, self.address = code.address, {}
        made = [(task, self.manager_code if task == self.manager else self.worker) for task in self.tasks]
        for who, make in made + [(it, self.handler_code) for it in self.handlers()]:
            self.address[who] = code.here()
            if self.often(.95):
                code.set(BASE, DATA)
                if self.often(.3):
                    # (an SC without LL, which fails also where the last one who ran here was linked)
                    code.add("SC", rs=BASE, rt=8, immediate=self.chance(0, 0, *SHARED))
                    code.add("SW", rs=BASE, rt=8, immediate=self.random.choice(RESULTS))
            top = code.here()
            make(code, who)
            code.back(top)
        self.code = b"".join(word.to_bytes(4, self.order) for word in code)

    def write_image(self):
        """An ELF file (System V ABI) without symbols: its header, program headers, and the segments' bytes."""
        segments = self.setup.segments
        headers, at = b"", 52 + 32 * len(segments)
        data, sign = {"little": (1, "<"), "big": (2, ">")}[self.order]
        for address, piece in segments:
            headers += struct.pack(f"{sign}8I", 1, at, address, 0, len(piece), len(piece), 7, 1)
            at += len(piece)
        fields = struct.pack(f"{sign}HHIIIIIHHHHHH", 2, 8, 1, self.start, 52, 0, 0, 52, 32, len(segments), 40, 0, 0)
        ident = (b"\x7fELF\1" + bytes([data]) + b"\1").ljust(16, b"\0")
        self.image = ident + fields + headers + b"".join(piece for _, piece in segments)

    def write_configuration(self):
        """The setup, and the text of the configuration that says the same."""
        ram = self.chance(0x10000, 0x10000, 0x20000)
        tasks = [self.task_setup(task, ram) for task in self.random.sample(self.tasks, len(self.tasks))]
        lines = {line: (its, self.address["line", line]) for line, its in self.lines.items()}
        cyclics = {key: self.cyclic_setup(key, its) for key, its in self.cyclics.items()}
        alarms = {key: AlarmSetup(its, self.word(), self.address["alarm", key]) for key, its in self.alarms.items()}
        data = self.random.getrandbits(8 * 64).to_bytes(64, "big")
        segments = [(self.start, self.code), (DATA, data)]
        self.setup = Setup(self.processors, ram, self.order, segments, tasks, self.semaphores, self.flags, self.queues,
                           self.spin_locks, lines, self.standard, self.mutexes, self.pools, self.mailboxes, cyclics,
                           alarms)
        bound = [(it.processor, "CRE_TSK(%d, {%d, 0x%x, 0x%x, %d, %d, %s});" % (
            it.id, 2 * it.starts, it.argument, it.address, it.priority, it.size,
            "NULL" if it.stack is None else hex(it.stack))) for it in tasks]
        bound += [(its, f"DEF_INH({line}, {{TA_HLNG, {address}}});") for line, (its, address) in lines.items()]
        bound += [(it.processor, f"CRE_CYC({key}, {{{2 * it.starts | 4 * it.keeps}, {it.argument}, {it.address}, "
                   f"{it.period}, {it.phase}}});") for key, it in cyclics.items()]
        bound += [(it.processor, f"CRE_ALM({key}, {{{self.chance('TA_NULL', 'TA_ASM', 0)}, {it.argument}, "
                   f"{it.address}}});") for key, it in alarms.items()]
        text = ["PROFILE(STANDARD);"] * self.standard + [f"BOARD({self.processors}, {ram});"]
        text += [one if its == 1 else f"CLASS(TCL_{its}) {{ {one} }}" for its, one in bound]
        text += [f"CRE_SEM({key}, {{{int(by)}, {count}, {most}}});"
                 for key, (by, count, most) in self.semaphores.items()]
        text += [f"CRE_FLG({key}, {{{by | 2 * many | 4 * clears}, {pattern}}});"
                 for key, (by, many, clears, pattern) in self.flags.items()]
        text += [f"CRE_DTQ({key}, {{{int(by)}, {capacity}, NULL}});" for key, (by, capacity) in self.queues.items()]
        text += [f"CRE_SPN({key}, {{{self.chance('TA_NULL', 0)}}});" for key in self.spin_locks]
        names = "TA_TFIFO", "TA_TPRI", "TA_INHERIT", "TA_CEILING"
        text += [f"CRE_MPF({key}, {{{int(it.by_priority)}, {it.count}, {it.size}, "
                 f"{'NULL' if it.area is None else hex(it.area)}}});" for key, it in self.pools.items()]
        text += [f"CRE_MBX({key}, {{{by | 2 * by_message}, {priorities}, NULL}});"
                 for key, (by, by_message, priorities) in self.mailboxes.items()]
        text += [f"CRE_MTX({key}, {{{self.chance(names[protocol], protocol)}, {ceiling}}});"
                 for key, (protocol, ceiling) in self.mutexes.items()]
        self.configuration = "\n".join(text) + "\n"

    def task_setup(self, task, ram):
        starts = task == self.manager or self.often(.7)
        size = self.chance(1, 15, 16, 17, 256, 1000)
        stack = None if self.often(.7) else RAM_START + self.random.randrange(ram - size)
        return TaskSetup(task, self.place[task], starts, self.word(), self.address[task], self.priority[task], size,
                         stack)

    def word(self):
        return self.chance(0, 1, self.random.getrandbits(32))

    def cyclic_setup(self, key, processor):
        period, phase = self.chance(1, 2, 3, 5, 8, 20, 50, 0x7FFFFFFF), self.chance(0, 0, 1, 2, 7, 20, 0x7FFFFFFF)
        return CyclicSetup(processor, self.word(), self.address["cyclic", key], self.often(.6), self.often(.4), period,
                           phase)

    def journal_text(self):
        """The journal of the runs. One of version 1 is big-endian, and so may stand for one of version 2."""
        old = ["board-journal 1"] if self.order == "big" else []
        lines = [self.chance(f"board-journal 2 {self.order}", *old)]
        lines += [f"{kind} {count}" if kind == "T" else f"{kind} {number} {count}" for kind, number, count in self.runs]
        return "\n".join([*lines, ""])

    def events(self):
        """Runs of events: a letter, a processor's or a line's number, and how often it comes."""
        left, longest = self.chance(500, 1000, 2000), self.chance(1, 4, 8, 20, 40)
        often = (.2, .3) if self.theme == "times" else (.05, .1, .2, .3)
        ticks, raises = self.chance(*often), self.chance(.02, .06, .15)
        while left > 0:
            kind, = self.random.choices("TRS", [ticks, raises, 1 - ticks - raises])
            known = {"T": [0], "R": list(self.lines), "S": [*range(1, self.processors + 1), *self.place.values()]}[kind]
            stray = kind != "T" and (not known or self.often(.01))
            number = self.chance(0, 9, 31, 32, 33, 159, 160, 255) if stray else self.random.choice(known)
            count = self.chance(1, 1, 2) if kind != "S" else self.random.randrange(1, longest + 1)
            left -= count
            yield kind, number, count

    def commands(self, executed, changed, length):
        """Some 20 commands for the debugger, which mostly name what the run touched; then all that it has changed."""
        unknown = ("stop", "", "goto", "goto -1", "goto 01", "regs 256", "mem 123", "next ", "NEXT", "break 8000000g")
        for _ in range(20):
            place = self.chance(DATA, RAM_START - 1, RAM_START + self.setup.ram, *changed[:20], *changed[-20:])
            near = self.chance(0, length, length + 1, self.random.randrange(length + 1))
            yield self.chance("next", "next", "back", "back", f"goto {near}", f"goto {near}", f"mem {place:08x}",
                              f"watch {place:08x}", f"break {self.chance(DATA, *executed):08x}",
                              f"regs {self.random.randrange(1, self.processors + 1)}",
                              f"regs {self.random.randrange(1, self.processors + 1)}",
                              self.chance(*unknown) if self.often(.3) else "next")
        yield f"goto {length}"
        yield from (f"regs {number}" for number in range(1, self.processors + 1))
        yield from (f"mem {address:08x}" for address in sorted(set(changed)))
