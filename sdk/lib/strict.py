"""Calls that the kernel has refused, as a trace shows them, and whether somebody looks at the answer."""
import re
from shown import WHO

# A line of `board trace`: the event, the executor, the place, and what happened. That of a tick has only an event.
LINE = re.compile(rf" *(\d+) (?:\d +{WHO} +(\S+))? +(.*)")
ANSWER = re.compile(r"(?:task (\d+): )?(\w+\((?:'.+'|[^()]*)\)) = (E_(?!OK\b)\w+)")
CALL = re.compile(r"\w+\(|service \d")
# Instructions whose first operand isn't what they write: stores, branches, traps, products and quotients, jumps.
WITHOUT_RESULT = re.compile(r"(?:s[bhw]|sw[lr]|b\w+|t(?:eq|ne|ge|lt)\w*|multu?|divu?|m(?:add|sub)u?|mt(?:hi|lo)|jr?|jal|pref)$")
WITH_BOTH = ("sc", "movz", "movn", "lwl", "lwr")      # that read their first operand, and write it
SEEN = 5000                             # events after a refused call, in which its answer is looked at or not
CALLS = 50                              # refused calls that are followed


def looks(text):
    """Whether an instruction, as `trace` shows it, reads $v0; nothing where it neither reads nor writes it."""
    if CALL.match(text):
        return False
    name, _, operands = text.split(";")[0].partition(" ")
    operands = operands.split(", ")
    read = operands if WITHOUT_RESULT.fullmatch(name) or name in WITH_BOTH else operands[1:]
    if any(re.search(r"\$v0\b", it) for it in read):
        return True
    return False if operands[0] == "$v0" else None


def is_looked_at(program, journal, event, who):
    """Whether somebody looks at the answer of a call; also where that can't be seen."""
    seen = program.traced(journal, "--instructions", "--from", str(event + 1), "--to", str(event + 1 + SEEN))
    for line in seen.split("\n"):
        found = LINE.fullmatch(line)
        if found and (found[2], found[3]) == who:
            if re.match(r"[A-Za-z]+: ", found[5]):
                return True
            answer = looks(found[5])
            if answer is not None:
                return answer
    return True


def answered(program, journal):
    """The calls that were answered with an error: event, executor, place or nothing, and the call with its answer."""
    for line in program.traced(journal).split("\n"):
        parts = LINE.fullmatch(line)
        for task, call, answer in ANSWER.findall(parts[5]) if parts else ():
            who = ("task", task) if task else (parts[2], parts[3])
            yield int(parts[1]), who, None if task else parts[4], f"{call} = {answer}"


def unlooked(program, journal):
    """Those whose answer nobody looks at, of each place the first. (Of put_chr lost.py says it.)"""
    found = {}
    for event, who, place, call in answered(program, journal):
        if not call.startswith("put_chr("):
            found.setdefault(place or (who, call.rpartition(" = ")[0]), (event, who, place, call))
    return [it for it in list(found.values())[:CALLS] if not is_looked_at(program, journal, it[0], it[1])]


def faults(program, journal):
    """The same, a line for each."""
    for event, who, place, call in unlooked(program, journal):
        where = program.names().place(place) if place else None
        line = f", at {program.names().told(f'{where[0]:08x}')}" if where else f", for {' '.join(who)}"
        yield f"{call} at event {event}{line}: nobody looks at the answer"
