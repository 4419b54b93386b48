"""Random boards whose programs hand words over: by calls, by SYNC beside loads and stores, by LL and SC, and by
nothing.

Most of what they touch are words that come up a few times, each round of a program's loop others: only the first race
of a word is shown, so what comes after it would be of no account.
"""
from boards import BASE, NUMBERS, SCRATCH, Maker
from kernel import CALLS, WAITING

# Where the words lie that are handed over, and flags, which hand them over, from MOVING on; and of each program the
# place of the words that it is at.
MOVING, WORDS, FLAGS, OWN = 17, 0x400, 0x4000, 0x300
LOADS, STORES = ("LW", "LW", "LW", "LBU", "LH", "LWL", "LWR"), ("SW", "SW", "SW", "SB", "SH", "SWL", "SWR")
# The ways to hand over, of which a board has one: calls of tasks, calls of handlers. (The first one is SYNC, LL and
# SC.)
WAYS = [
    ("get_pid", "iget_tid"),
    ("sig_sem sig_sem wai_sem pol_sem twai_sem", "isig_sem"),
    ("set_flg set_flg set_flg wai_flg twai_flg pol_flg pol_flg clr_flg", "iset_flg"),
    ("snd_dtq rcv_dtq tsnd_dtq trcv_dtq psnd_dtq prcv_dtq", "ipsnd_dtq"),
    ("snd_dtq rcv_dtq rcv_dtq psnd_dtq prcv_dtq prcv_dtq trcv_dtq fsnd_dtq fsnd_dtq", "ifsnd_dtq ipsnd_dtq"),
    ("act_tsk act_tsk mact_tsk can_act can_act ext_tsk ter_tsk", "iact_tsk imact_tsk"),
    ("wup_tsk wup_tsk can_wup can_wup slp_tsk tslp_tsk", "iwup_tsk"),
    ("rel_wai sus_tsk sus_tsk rsm_tsk rsm_tsk ter_tsk act_tsk tslp_tsk twai_sem", "irel_wai iact_tsk"),
    ("loc_cpu loc_cpu unl_cpu loc_spn try_spn", "iget_tid"),
    ("dis_dsp dis_dsp ena_dsp rot_rdq chg_pri", "irot_rdq"),
    ("loc_mtx loc_mtx tloc_mtx ploc_mtx ext_tsk ter_tsk act_tsk", "iact_tsk"),
    ("get_mpf get_mpf tget_mpf pget_mpf rel_mpf", "iget_tid"),
    ("snd_mbx snd_mbx rcv_mbx trcv_mbx prcv_mbx", "isnd_mbx"),
    ("sta_alm sta_alm sta_cyc stp_alm stp_cyc loc_cpu", "ista_alm"),
    ("loc_cpu loc_spn loc_spn try_spn", "iloc_cpu iloc_spn iloc_spn itry_spn"),
]
ENDS = {"loc_cpu": "unl_cpu", "dis_dsp": "ena_dsp", "loc_spn": "unl_spn", "try_spn": "unl_spn", "loc_mtx": "unl_mtx",
        "tloc_mtx": "unl_mtx", "ploc_mtx": "unl_mtx", "get_mpf": "rel_mpf", "tget_mpf": "rel_mpf", "pget_mpf":
        "rel_mpf", "iloc_cpu": "iunl_cpu", "iloc_spn": "iunl_spn", "itry_spn": "iunl_spn"}


class Handing(Maker):
    """The board of a seed, as Maker makes it, with programs that hand words over."""

    def shape(self):
        if self.theme == "links":
            self.theme = "everything"
        super().shape()
        number = self.random.randrange(len(WAYS))
        of_tasks, of_handlers = (names.split() for names in WAYS[number])
        may_wait = [name for name in of_tasks if CALLS[NUMBERS[name]].place == WAITING]
        self.ways = [of_tasks, [name for name in of_tasks if name not in may_wait], of_handlers]
        self.suspends = number == 7
        self.fences = 1 if number == 0 or self.suspends else self.chance(0, 0, .1, .4)
        self.longest = self.chance(1, 4, 20)
        # (few tasks, mostly each on a processor of its own)
        self.tasks = self.tasks[:self.chance(3, 4, 5, 10)]
        self.others = [task for task in self.others if task in self.tasks]
        if self.often(.7):
            self.place = {task: at % self.processors + 1 for at, task in enumerate(self.tasks)}
        self.semaphores = self.semaphores or {1: self.new_semaphore()}
        self.flags = self.flags or {2: self.new_flag()}
        capacities = (0,) if number == 3 else (1, 2, 2, 3) if number == 4 else (0, 1, 3)
        self.queues = {key: (self.often(.6), self.chance(*capacities)) for key in self.queues or [3]}
        self.spin_locks = self.spin_locks or [4]
        if number == 10:
            self.standard, self.mutexes = True, self.mutexes or {5: self.new_mutex()}
        if number == 11:
            self.standard, self.pools = True, self.pools or {6: self.new_pool()}
        if number == 12:
            self.standard, self.mailboxes = True, self.mailboxes or {7: self.new_mailbox()}
        if number == 13:
            self.standard, self.cyclics, self.alarms = True, self.cyclics or {8: 1}, self.alarms or {9: self.processors}
        if number == 14:
            self.standard, self.lines = True, self.lines or {3: self.processors, 5: 1}
        self.words, self.step = self.chance(4, 12, 40, 100), self.chance(0, 16, 64, 64, 64)
        self.flag_words, self.sound = self.chance(1, 2, 4), self.chance(.3, .6, .9)
        self.base = self.chance(BASE, MOVING)
        if self.suspends:
            self.base, self.sound, self.longest = MOVING, .95, 20
        self.programs = [*self.tasks, *self.handlers()]

    # Programs

    def worker(self, code, task):
        self.move(code, task)
        super().worker(code, task)

    def manager_code(self, code, task):
        self.move(code, task)
        super().manager_code(code, task)

    def handler_code(self, code, who):
        self.move(code, who)
        self.touch(code)
        super().handler_code(code, who)

    def move(self, code, who):
        """Goes on to the words of the next round, or stays, as the board has it."""
        own = OWN + 4 * self.programs.index(who)
        code.add("LW", rs=BASE, rt=MOVING, immediate=own)
        code.add("ADDIU", rs=MOVING, rt=MOVING, immediate=self.step)
        code.add("SW", rs=BASE, rt=MOVING, immediate=own)
        code.add("ADDU", rs=MOVING, rt=BASE, rd=MOVING)

    def call(self, code, name, caller, given=()):
        if self.often(.5):
            self.touch(code)
        arguments = super().call(code, name, caller, given)
        if self.often(.5):
            self.touch(code)
        return arguments

    def calls(self, code, who, caller):
        if self.suspends and who == 0 and self.often(.8):
            # (so that the manager suspends it at all places)
            return self.compute(code)
        if self.often(.1) or not self.ways[who]:
            return super().calls(code, who, caller)
        name = self.random.choice(self.ways[who])
        arguments = self.call(code, name, caller)
        if name in ENDS and self.often(.8):
            self.touch(code)
            self.call(code, ENDS[name], caller, arguments)

    def compute(self, code, *_):
        if self.often(.05):
            super().compute(code)
        for _ in range(self.random.randrange(1, 3)):
            if self.often(self.fences):
                self.chance(self.gives, self.takes, self.takes, self.locks)(code)
            else:
                self.touch(code)

    # Touches

    def touch(self, code):
        """A load or a store of a word that is handed over."""
        self.access(code, self.chance(LOADS, STORES), MOVING, WORDS + 4 * self.random.randrange(self.words))

    def access(self, code, names, register, at):
        """A load or a store of a word, or of a part of it."""
        name = self.random.choice(names)
        part = {"H": 2, "B": 1}.get(name[1], 4)
        at += self.chance(0, 0, *range(0, 4, part)) if part < 4 else 0
        code.add(name, rs=register, rt=self.random.choice(SCRATCH), immediate=at)

    def flag(self):
        return FLAGS + 4 * self.random.randrange(self.flag_words)

    # What hands over, rightly or nearly

    def between(self, code):
        """What stands between SYNC and an access: nothing that matters, or what stands in the way."""
        for _ in range(self.chance(0, 0, 1, self.longest)):
            self.chance(lambda: code.add("SLL"), lambda: code.add("PREF", rs=BASE),
                        lambda: code.add("ADDIU", rs=8, rt=8, immediate=1))()
        if not self.often(self.sound):
            self.chance(lambda: self.touch(code), lambda: code.add("SC", rs=self.base, rt=8, immediate=self.flag()),
                        lambda: code.add("LL", rs=self.base, rt=8, immediate=self.flag()),
                        lambda: super(Handing, self).call(code, self.chance("get_pid", "rot_rdq", "can_act"), None))()

    def gives(self, code):
        """Touches words, and then stores into a flag, mostly after SYNC."""
        for _ in range(self.random.randrange(3)):
            self.touch(code)
        if self.often(.9):
            code.add("SYNC", sa=self.chance(0, 0, 0, 16))
            self.between(code)
        self.access(code, STORES, self.base, self.flag())
        if self.often(.2):
            code.add("SYNC")
            self.touch(code)

    def takes(self, code):
        """Loads a flag, mostly with SYNC after it, and then touches words."""
        self.access(code, LOADS, self.base, self.flag())
        if self.often(.9):
            self.between(code)
            code.add("SYNC")
        for _ in range(self.random.randrange(3)):
            self.touch(code)

    def locks(self, code):
        """Takes a flag by LL and SC, whoever has it, touches words, and frees it by a store or by SC."""
        flag = self.flag()
        code.add("LL", rs=self.base, rt=8, immediate=flag)
        code.add("SC", rs=self.base, rt=8, immediate=flag)
        self.touch(code)
        if self.often(.3):
            code.add("LL", rs=self.base, rt=8, immediate=flag)
            code.add("SC", rs=self.base, rt=8, immediate=flag)
        else:
            code.add("SYNC")
            self.between(code)
            code.add("SW", rs=self.base, immediate=flag)
