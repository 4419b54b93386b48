"""Output that a run has lost: characters that the kernel has refused to write, from a handler, with the CPU locked, or
since the console is full.

The kit's `put_chr`, `printf` and standard output count each in the word `lost_output` (sdk/include/board.h), after
printf has added the place of its caller to `board_lost_by`. So a trace of the calls, and of who adds to these words, says
whose it was. Where `lost_output` is 0 in the end, the program has seen to these itself. A call by another way is lost
if nobody looks at its answer."""
import os
import re
import strict
from shown import WHO

REFUSED = re.compile(r"(?m)^refused: put_chr\(.*\) = (E_\w+)(?: \(.*?\))? at event")
STORED = re.compile(rf" *(\d+) \d +{WHO} .*; (lost_output|board_lost_by) "
                    r"\([0-9a-f]{8}\): ([0-9a-f]{8}), was ([0-9a-f]{8})\b.*")
WHY = {"E_CTX": "handlers and CPU-locked tasks can't write", "E_QOVR": "the console is full"}
STEP = re.compile(rf" *\d+ \d +{WHO} +(\S+) +(?:(jr \$ra)|jal|b\w+al|jalr \$ra)\b"
                  r".*?(?:; to (\w+).*)?")
LINES = 10                              # that are shown
BEFORE = 20000                          # events before a refused call, in which its callers are looked for


def is_certain(summary):
    """Whether nothing is lost for certain, by what `board trace --summary` says."""
    return not REFUSED.search(summary)


class Loss:
    """A refused put_chr: at which event, whose, where, its answer, and how many characters were lost by it."""

    def __init__(self, event, who, place, call):
        self.event, self.who, self.place, self.answer = event, who, place, call.rpartition(" = ")[2]
        self.characters, self.caller = 0, None

    def count(self, word, value, before):
        if word == "board_lost_by":
            self.caller = (value - before) % 2 ** 32
        elif value > before:
            self.characters += value - before


def stores(program, journal):
    """Who stores into the kit's words: event, executor, word, what it is then, and what it was."""
    if not program.names().place("lost_output"):
        return
    for line in program.traced(journal, "--word", "lost_output,board_lost_by").split("\n"):
        found = STORED.fullmatch(line)
        if found:
            yield int(found[1]), (found[2], found[3]), found[4], int(found[5], 16), int(found[6], 16)


def unlooked(program, journal, calls):
    """Those whose answer nobody looks at: of several at a place the first is looked at, and no more than some places."""
    looked = {}
    for it in calls:
        at = (it.who, it.place)
        if at not in looked:
            looked[at] = len(looked) >= strict.CALLS or strict.is_looked_at(program, journal, it.event, it.who)
        if not looked[at]:
            it.characters = 1
            yield it


def losses(program, journal):
    """The refused calls by which something is lost."""
    calls = [Loss(event, who, place, call) for event, who, place, call in strict.answered(program, journal)
             if call.startswith("put_chr(")]
    stored, last, left = list(stores(program, journal)), {}, 0
    for _, who, *what in sorted([(it.event, it.who, it) for it in calls] + stored, key=lambda it: it[0]):
        if len(what) == 1:
            last[who] = what[0]
        elif who in last:
            last[who].count(*what)
        left = what[1] if what[0] == "lost_output" else left
    counted = [it for it in calls if it.characters]
    others = [it for it in calls if not it.characters]
    return (counted if left else []) + list(unlooked(program, journal, others))


def is_of_program(program, address):
    """Whether an address has a line of the program's own source: not of the kit's, nor of a library without lines."""
    found = program.names().frame(f"{address:08x}")
    return found is not None and found[2].isdigit() and \
        os.path.dirname(os.path.realpath(found[1])) != os.path.dirname(os.path.realpath(__file__))


def caller(program, journal, loss):
    """The function of a library that the program has called, and from where: of the calls that have not returned before
    the refused one the last that is the program's own. Nothing if it is further back."""
    returned = 0
    start = str(max(0, loss.event - BEFORE))
    seen = program.traced(journal, "--instructions", "--from", start, "--to", str(loss.event))
    for found in filter(None, map(STEP.fullmatch, reversed(seen.split("\n")))):
        place = program.names().place(found[3])
        if (found[1], found[2]) != loss.who or not place:
            continue
        if found[4]:
            returned += 1
        elif returned:
            returned -= 1
        elif is_of_program(program, place[0]):
            return found[5], place[0]
    return None


def where(program, journal, loss):
    """The function in C, with its line: that of printf's caller, or of the call."""
    told = program.names().told
    if loss.caller and not is_of_program(program, loss.caller - 8):
        found = caller(program, journal, loss)
        if found:
            return f"{found[0]} in {told(f'{found[1]:08x}')}"
    if loss.caller:
        return f"printf in {told(f'{loss.caller - 8:08x}')}"
    place = program.names().place(loss.place) if loss.place else None
    return told(f"{place[0]:08x}") if place else loss.place


def faults(program, journal, summary=None):
    """What is lost, a line for whom, where and why. `summary` is that of the journal, if it is known."""
    if is_certain(program.traced(journal, "--summary") if summary is None else summary):
        return []
    found = {}
    for it in losses(program, journal):
        key = (it.who, it.caller or it.place, it.answer)
        first, characters = found.get(key, (it, 0))
        found[key] = (first, characters + it.characters)
    lines = [f"lost output: {count} character{'s' if count > 1 else ''} of {' '.join(it.who)}, "
             f"{where(program, journal, it)}, first at event {it.event}: put_chr = {it.answer}, "
             f"{WHY.get(it.answer, 'it is refused')}" for it, count in list(found.values())[:LINES]]
    return [program.shown.told(it) for it in lines]
