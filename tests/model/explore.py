#!/usr/bin/env python3
"""All schedules of a board within bounds, by the model: whether one of them fails, and how many there are if none does.

  tests/model/explore.py IMAGE CONFIG [--events N] [--preemptions P] [--ticks T] [--raises R|F..R --lines 3,4]
      [--fair ROUNDS] [--exception] [--deadlock] [--ends] [--word count=2,inside=0..1] [--console TEXT]
      [--never in1+in2>1] [--shortest] [--shard K/M] [--out JOURNAL] [--board PROGRAM]

IMAGE is an object file, or a source, which PROGRAM (build/board) assembles; the options are those of `board explore`.
It ends with status 5 if a schedule fails, and prints how many preemptions and events it has, and what fails.

CHESS (Musuvathi and Qadeer, "Iterative Context Bounding for Systematic Testing of Multithreaded Programs", PLDI 2007)
has the bound on preemptions: a switch from a thread that could go on counts, one from a thread that can't is free.
Whether it could is judged right after its last step. A schedule comes to an end where its board is off, or at rest
after as many raises as are owed; it is cut short where it hasn't, and no event is left, or nobody goes, a wait would
end by a tick or a time handler be due at one, and none is left.

Some steps are left out: where a schedule with one of them fails, one without it does. A processor falls asleep by a
local instruction: one that touches nothing but registers, HI, LO and the program counter, and can raise nothing,
whatever they hold (docs/MACHINE.md), in a delay slot or not. It sleeps while other processors execute instructions,
none of which calls the kernel, raises an exception or changes the word of that instruction; whatever else happens wakes
it. All that was done while it sleeps could have been done just before its instruction. So a step of it is left out
where another processor has stepped last: that switch could have come one instruction earlier. One sleeper is kept in
mind, the first. With a fair end nothing is left out.

With a shard the schedules are dealt out by their second preemption, tick or raise, by the first if the bounds have only
one, in turn by how many events are left after it; a schedule that is never dealt out is in every shard, and counted in
the first.
"""
import argparse
import collections
import operator
import os
import pickle
import re
import struct
import subprocess
import sys
import tempfile

sys.dont_write_bytecode = True
sys.path.insert(0, os.path.dirname(os.path.abspath(__file__)))
# (these are the modules beside this file)
from kernel import AlarmSetup, Board, CyclicSetup, PoolSetup, Setup, TaskSetup  # noqa: E402
from machine import RAM_START, decode  # noqa: E402

# How many steps each processor takes in a round of the fair end, before a tick passes.
ROUND = 16
ATTRIBUTES = {"TA_NULL": 0, "TA_HLNG": 0, "TA_ASM": 1, "TA_ACT": 2, "TA_TFIFO": 0, "TA_TPRI": 1, "TA_WSGL": 0,
              "TA_WMUL": 2, "TA_CLR": 4, "TA_INHERIT": 2, "TA_CEILING": 3, "TA_MFIFO": 0, "TA_MPRI": 2, "TA_STA": 2,
              "TA_PHS": 4}
Bounds = collections.namedtuple("Bounds", "events preemptions ticks raises owed")
# Where a schedule is, beside its board: what is left of the bounds, whom a step of another processor preempts (0:
# nobody), the path there (None, or a pair of the path before and an event), and who sleeps, if somebody does.
Place = collections.namedtuple("Place", "left last path asleep")
# A processor that sleeps, and the local instruction by which it fell asleep.
Asleep = collections.namedtuple("Asleep", "processor address word")
# The instructions that aren't local: they may raise an exception, call the kernel, or touch memory.
NOT_LOCAL = set("""ADD SUB ADDI SYSCALL BREAK TGE TGEU TLT TLTU TEQ TNE TGEI TGEIU TLTI TLTIU TEQI TNEI
    LB LH LWL LW LBU LHU LWR LL SB SH SWL SW SWR SC""".split())
Image = collections.namedtuple("Image", "order segments symbols")
# What is looked for beside words: the failures' names, the console's text or None, and (address, least, most) of words
# at the end and of words always; and the conditions that are never to hold, each its text, its comparison, and the
# terms of both of its sums: numbers, and the addresses of words, alone in a tuple.
Wanted = collections.namedtuple("Wanted", "names console last always rounds never", defaults=((),))
COMPARISONS = {"<": operator.lt, "<=": operator.le, ">": operator.gt, ">=": operator.ge, "==": operator.eq,
               "!=": operator.ne}


class Uncounted:
    """In place of the model's counters, which a copied board would drag along."""

    def __getitem__(self, name):
        return 0

    def __setitem__(self, name, count):
        pass


class Explored(Board):
    """A board that knows whether an exception was raised, and is copied quickly."""

    def __init__(self, setup):
        self.has_fault = False
        super().__init__(setup)
        self.counts = self.memory.counts = Uncounted()

    def fault(self, processor, code):
        self.has_fault = True
        super().fault(processor, code)

    def packed(self):
        self.memory.changed.clear()
        return pickle.dumps(self, -1)

    def goes(self, processor):
        """Whether a step of a processor does anything: an interrupt is accepted, or somebody executes."""
        if self.off or processor.stopped:
            return False
        return bool(self.acceptable(processor)) or processor.context() is not None

    def does(self, event):
        kind, number = event
        if kind == "S":
            return number in self.processors and self.goes(self.processors[number])
        return not self.off and (kind == "T" or number in self.lines)

    def goes_by(self, event, asleep):
        """Does an event where somebody may sleep. Answers who sleeps then."""
        kind, number = event
        context = self.processors[number].context() if kind == "S" else None
        address = context and context.pc
        word = context and self.word(address)
        if self.event(*event)[0] != "Ran":
            return None
        if asleep and asleep.processor != number and self.word(asleep.address) == asleep.word:
            return asleep
        return None if decode(word).mnemonic in NOT_LOCAL else Asleep(number, address, word)

    # What is looked for

    def is_timed(self):
        """A wait ends by a tick, or a time handler is due at one."""
        return any(it.due is not None for it in (*self.tasks.values(), *self.timers.values()))

    def is_still(self):
        """Nobody goes on, and no tick lets anybody go on."""
        return not any(map(self.goes, self.processors.values())) and not self.is_timed()

    def is_stuck(self):
        return not self.off and self.is_still() and any(it.waits_in is not None for it in self.tasks.values())

    def word(self, address):
        at, memory = address - RAM_START, self.memory
        return int.from_bytes(memory.bytes[at:at + 4], memory.order) if 0 <= at <= len(memory.bytes) - 4 else None

    def fault_of(self, words):
        """The first of some words that isn't what it should be, or nothing."""
        found = ((address, self.word(address), least, most) for address, least, most in words)
        return next((f"the word at {address:08x} is {word}" for address, word, least, most in found
                     if word is None or not least <= word <= most), None)

    def sum_of(self, terms):
        values = [it if isinstance(it, int) else self.word(*it) for it in terms]
        return None if None in values else sum(values)

    def holding(self, conditions):
        """The first of some conditions that holds, or one of whose words isn't there; or nothing."""
        for text, compares, *sums in conditions:
            left, right = map(self.sum_of, sums)
            if left is None or right is None or compares(left, right):
                return text
        return None

    def fault_by_now(self, wanted):
        """What a board shows at whatever point of a schedule, or nothing."""
        if "exception" in wanted.names and self.has_fault:
            return "an exception"
        if "deadlock" in wanted.names and self.is_stuck():
            return "a deadlock"
        if wanted.console is not None and not wanted.console.startswith(self.console):
            return "another console"
        return self.fault_of(wanted.always) or self.holding(wanted.never)

    def fault_at_last(self, wanted):
        """What a last board of a schedule shows, or nothing."""
        if wanted.console is not None and not self.console.startswith(wanted.console):
            return "another console"
        if "on" in wanted.names and not self.off:
            return "the board is on"
        return self.fault_of(wanted.last)

    def fault_at_fair_end(self, wanted):
        """What a copy of the board shows after the fair end, or nothing."""
        copy = pickle.loads(self.packed())
        for _ in range(wanted.rounds):
            for _ in range(ROUND):
                for number in copy.processors:
                    copy.event("S", number)
            copy.event("T")
        return copy.fault_by_now(wanted) or copy.fault_at_last(wanted)

    def is_end(self, left):
        return self.off or left.owed == 0 and self.is_still()

    def cut_by(self, left):
        """The bound that has cut a schedule short, or nothing."""
        if self.is_end(left):
            return None
        if left.events == 0:
            return "events"
        is_waiting = not any(map(self.goes, self.processors.values())) and not self.is_still()
        return "ticks" if is_waiting and left.ticks == 0 else None

    def fault_at(self, wanted, left):
        """What a schedule shows that has led to the board, with so much left of the bounds, or nothing."""
        found = self.fault_by_now(wanted)
        if found is None and self.is_end(left):
            return self.fault_at_last(wanted)
        if found is None and wanted.rounds and left.owed == 0 and self.cut_by(left):
            return self.fault_at_fair_end(wanted)
        return found


class Search:
    """A search through schedules. `found` is a schedule that fails, and what fails there; `tried` is how many were gone
    through up to where nothing more may come, and `ended` how many of these are at an end there."""

    def __init__(self, setup, bounds, wanted, lines, shard):
        self.setup, self.bounds, self.wanted, self.shard = setup, bounds, wanted, shard
        self.among = [("S", number) for number in range(1, setup.processors + 1)]
        self.among += [("T", 0)] * (bounds.ticks > 0) + [("R", line) for line in lines if bounds.raises]
        self.tried, self.ended, self.found = 0, 0, None
        self.cut = {"events": 0, "ticks": 0}

    def run(self):
        """Searches the schedules of the shard."""
        self.search(Explored(self.setup), Place(self.bounds, 0, None, None))
        return self.found

    def search(self, board, place):
        """Depth first from a place on: goes by the first event that may come, while the others wait."""
        waiting = []
        while True:
            ways = self.ways(board, place)
            packed = len(ways) > 1 and board.packed()
            waiting += [(packed, *way) for way in ways[:0:-1]]
            if ways:
                event, place = ways[0]
            elif waiting and not self.found:
                packed, event, place = waiting.pop()
                board = pickle.loads(packed)
            else:
                return
            asleep = board.goes_by(event, place.asleep)
            place = left_by(board, place, event)._replace(asleep=asleep)

    def ways(self, board, place):
        """The events that may come and aren't left out, with the place after each, but for who falls asleep or wakes by
        it. There are none where the schedule fails, or nothing more may come."""
        fault = board.fault_at(self.wanted, place.left)
        ways = [] if fault else [(event, after) for event in self.tried_at(place) if board.does(event)
                                 for after in [place_after(board, place, event)] if min(after.left) >= 0]
        if fault:
            self.found = listed(place.path), fault
        elif not ways and (self.is_dealt(place.left) or self.shard[0] == 1):
            self.tried += 1
            if board.is_end(place.left):
                self.ended += 1
            else:
                self.cut[board.cut_by(place.left)] += 1
        return [way for way in ways if not self.is_left_out(place, way[0]) and not self.is_others(place, way[1])]

    def tried_at(self, place):
        """The events in their order: those behind the step of the processor that has stepped last, those before it, and
        that step, which alone costs nothing."""
        own = "S", place.last
        first = self.among.index(own) + 1 if place.last else 0
        return self.among[first:] + self.among[:first]

    def is_left_out(self, place, event):
        number = place.asleep and place.asleep.processor
        return event == ("S", number) and place.last != number and not self.wanted.rounds

    def is_dealt(self, left):
        """Whether a schedule is dealt out: its second choice that costs is made, or the only one that the bounds have."""
        bounds = choices(self.bounds)
        return choices(left) < (bounds - 1 if bounds > 1 else bounds)

    def is_others(self, place, after):
        """Whether an event deals the schedule to another shard."""
        number, of = self.shard
        is_deal = self.is_dealt(after.left) and not self.is_dealt(place.left)
        return is_deal and after.left.events % of != number - 1


def choices(left):
    return left.preemptions + left.ticks + left.raises


def place_after(board, place, event):
    """The place after an event; something in it is below 0 where the bounds don't have it."""
    kind, number = event
    (events, preemptions, ticks, raises, owed), last, path, asleep = place
    is_preempting = kind == "S" and last not in (0, number)
    left = Bounds(events - 1, preemptions - is_preempting, ticks - (kind == "T"), raises - (kind == "R"),
                  max(owed - (kind == "R"), 0))
    return Place(left, last, (path, event), asleep)


def left_by(board, place, event):
    """A place after its event was done: whom a step of another processor preempts there."""
    kind, number = event
    if kind != "S":
        return place
    return place._replace(last=number if board.processors[number].context() is not None else 0)


def listed(path):
    events = []
    while path:
        path, event = path
        events.append(event)
    return events[::-1]


def searched(setup, bounds, wanted, lines, shard, shortest):
    """The last search: with as few preemptions as fail, and then, if asked for, with as few events as any within the
    bounds."""
    for preemptions in range(bounds.preemptions + 1):
        search = Search(setup, bounds._replace(preemptions=preemptions), wanted, lines, shard)
        if search.run():
            break
    while shortest and search.found and search.found[0]:
        fewer = Search(setup, bounds._replace(events=len(search.found[0]) - 1), wanted, lines, shard)
        if not fewer.run():
            break
        search = fewer
    return search


def journal(events, order):
    lines, at = [f"board-journal 2 {order}"], 0
    while at < len(events):
        kind, number = events[at]
        count = next((n for n in range(1, len(events) - at) if events[at + n] != events[at]), len(events) - at)
        lines.append(f"T {count}" if kind == "T" else f"{kind} {number} {count}")
        at += count
    return "".join(f"{line}\n" for line in lines)


# Files

def read_image(data):
    """An object file (System V ABI): byte order, segments, symbols."""
    order = "big" if data[5] == 2 else "little"
    sign = ">" if order == "big" else "<"
    programs, sections = struct.unpack_from(f"{sign}2I", data, 28)
    headers, _, program_count, _, section_count = struct.unpack_from(f"{sign}5H", data, 40)[0:5]
    segments, symbols = [], {}
    for at in range(programs, programs + 32 * program_count, 32):
        kind, offset, address, _, size = struct.unpack_from(f"{sign}5I", data, at)
        if kind == 1 and size:
            segments.append((address, data[offset:offset + size]))
    tables = [struct.unpack_from(f"{sign}10I", data, sections + 40 * it) for it in range(section_count)]
    for table in tables:
        if table[1] == 2:
            names = tables[table[6]][4]
            for at in range(table[4], table[4] + table[5], 16):
                name, value = struct.unpack_from(f"{sign}2I", data, at)
                text = data[names + name:data.index(0, names + name)].decode()
                symbols.setdefault(text, value)
    return Image(order, segments, symbols)


def image_of(path, program):
    with open(path, "rb") as file:
        data = file.read()
    if data[:4] == b"\x7fELF":
        return read_image(data)
    with tempfile.TemporaryDirectory() as folder:
        subprocess.run([program, "asm", path, f"{folder}/image"], check=True)
        with open(f"{folder}/image", "rb") as file:
            return read_image(file.read())


def setup_of(text, image):
    """What a configuration makes of an image."""
    text = re.sub(r"//.*|(?s:/\*.*?\*/)", " ", text)
    values = image.symbols | ATTRIBUTES

    def value(word):
        return sum({values[it] if it in values else int(it, 0) for it in re.split(r"\s*\|\s*", word.strip())})
    kinds = {"SEM": {}, "FLG": {}, "DTQ": {}, "SPN": {}, "MTX": {}, "MPF": {}, "MBX": {}}
    tasks, lines, cyclics, alarms, cpu, standard = [], {}, {}, {}, 1, False
    for name, words, end in re.findall(r"(\w+)\s*\(([^;]*?)\)\s*(?=([;{]))|\}", text):
        words = [it.strip() for it in words.replace("{", " ").replace("}", " ").split(",")]
        if name == "PROFILE":
            standard = True
        elif name == "BOARD":
            processors, ram = map(value, words)
        elif name == "CLASS":
            cpu = int(words[0][4:])
        elif name == "":
            cpu = 1
        elif name == "DEF_INH":
            lines[value(words[0])] = cpu, value(words[2])
        elif name == "CRE_TSK":
            key, bits, argument, address, priority, size = map(value, words[:6])
            stack = None if words[6] == "NULL" else value(words[6])
            tasks.append(TaskSetup(key, cpu, bool(bits & 2), argument, address, priority, size, stack))
        elif name == "CRE_MPF":
            key, bits, count, size = map(value, words[:4])
            area = None if words[4] == "NULL" else value(words[4])
            kinds["MPF"][key] = PoolSetup(bool(bits & 1), count, size, area)
        elif name == "CRE_CYC":
            key, bits, argument, address, period, phase = map(value, words)
            cyclics[key] = CyclicSetup(cpu, argument, address, bool(bits & 2), bool(bits & 4), period, phase)
        elif name == "CRE_ALM":
            key, _, argument, address = map(value, words)
            alarms[key] = AlarmSetup(cpu, argument, address)
        else:
            key, bits, *rest = [0 if it == "NULL" else value(it) for it in words]
            kinds[name[4:]][key] = {"SEM": (bool(bits & 1), *rest), "DTQ": (bool(bits & 1), *rest[:1]), "SPN": None,
                                    "FLG": (bool(bits & 1), bool(bits & 2), bool(bits & 4), *rest),
                                    "MTX": (bits, *rest),
                                    "MBX": (bool(bits & 1), bool(bits & 2), *rest[:1])}[name[4:]]
    mutexes, pools, mailboxes = (kinds.pop(it) for it in ("MTX", "MPF", "MBX"))
    return Setup(processors, ram, image.order, image.segments, tasks, *kinds.values(), lines, standard, mutexes, pools,
                 mailboxes, cyclics, alarms)


def never_of(text, symbols):
    found = []
    for it in filter(None, (text or "").split(",")):
        left, sign, right = re.fullmatch(r"([^<>=!]*)([<>]=?|==|!=)([^<>=!]*)", it).groups()
        terms = [[term.strip() for term in side.split("+")] for side in (left, right)]
        sums = [[int(term, 0) if term[0].isdigit() else (symbols[term],) for term in side] for side in terms]
        found.append((it, COMPARISONS[sign], *sums))
    return found


def wanted_of(words, symbols):
    names = [it for it, is_wanted in (("exception", words.exception), ("deadlock", words.deadlock), ("on", words.ends))
             if is_wanted]
    last, always = [], []
    for name, value in re.findall(r"([^=,]+)=([^,]+)", words.word or ""):
        address = symbols[name] if name in symbols else int(name, 16)
        least, _, most = value.partition("..")
        (always if most else last).append((address, int(least, 0), int(most or least, 0)))
    console = words.console and re.sub(r"\\(n|t|\\|x..)", unescaped, words.console).encode("latin-1")
    never = never_of(words.never, symbols)
    if not (names or last or always or never or words.console is not None):
        names = ["exception", "deadlock"]
    return Wanted(names, b"" if words.console == "" else console, last, always, words.fair, never)


def unescaped(found):
    return {"n": "\n", "t": "\t", "\\": "\\"}.get(found[1]) or chr(int(found[1][1:], 16))


def counted(number, thing):
    return f"{number} {thing}{'' if number == 1 else 's'}"


def words_of_command():
    parser = argparse.ArgumentParser()
    parser.add_argument("image")
    parser.add_argument("config")
    for name, number in (("events", 1000), ("preemptions", 1), ("ticks", 0), ("fair", 0)):
        parser.add_argument(f"--{name}", type=int, default=number)
    for name in ("exception", "deadlock", "ends", "shortest"):
        parser.add_argument(f"--{name}", action="store_true")
    for name in ("lines", "word", "console", "never", "out"):
        parser.add_argument(f"--{name}")
    parser.add_argument("--raises", default="0")
    parser.add_argument("--shard", default="1/1")
    parser.add_argument("--board", default="build/board")
    return parser.parse_args()


def main():
    words = words_of_command()
    image = image_of(words.image, words.board)
    with open(words.config, encoding="latin-1") as file:
        setup = setup_of(file.read(), image)
    owed, _, raises = words.raises.rpartition("..")
    bounds = Bounds(words.events, words.preemptions, words.ticks, int(raises), int(owed or raises))
    lines = [int(it) for it in (words.lines or "").split(",") if it]
    shard = tuple(map(int, words.shard.split("/")))
    search = searched(setup, bounds, wanted_of(words, image.symbols), lines, shard, words.shortest)
    if search.found:
        events, fault = search.found
        print(f"{counted(search.bounds.preemptions, 'preemption')}, {counted(len(events), 'event')}: {fault}")
        text = journal(events, image.order)
        if words.out:
            with open(words.out, "w", encoding="latin-1") as file:
                file.write(text)
        else:
            print(text, end="")
        return 5
    print(f"none of {counted(search.tried, 'schedule')} fails: at most {counted(bounds.events, 'event')}, "
          f"{counted(bounds.preemptions, 'preemption')}, {counted(bounds.ticks, 'tick')} and "
          f"{counted(bounds.raises, 'raise')}"
          + (f"; rest is an end after {counted(bounds.owed, 'raise')}" if bounds.raises else "")
          + (f", shard {shard[0]} of {shard[1]}" if shard[1] > 1 else ""))
    print(f"{search.ended} came to an end" + "".join(f", {it} by {name}" for name, it in search.cut.items()))
    return 0


if __name__ == "__main__":
    sys.exit(main())
