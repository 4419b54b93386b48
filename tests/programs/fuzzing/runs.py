"""Runs a program `board` on the input of a case, as it is, with a growth refused, or with a stream that fails, and says
what is wrong with the end."""
import collections
import json
import os
import random as chance
import re
import resource
import subprocess
import xml.etree.ElementTree

SECONDS, MEMORY = 60, 3 << 30
FAULT = re.compile(rb"board: the [a-z ]+: (line \d+)?")
LINE = re.compile(rb"board: [ -~]*\n")
# What is told of an input that is done all the same.
WARNINGS = re.compile(rb"(board: warning: [ -~]*\n)*")
WRONG_LINE = re.compile(rb"error: [ -~\n]*\n\nFor more information, try '--help'\.\n|board: an argument isn't UTF-8\n")
# What clap says of a wrong command line takes memory itself. This is said where there is none.
UNTOLD = b"board: the command line is wrong, and there is no memory to say how\n"
REGISTERS = rb"pc [0-9a-f]{8}\n(\$[0-9]+ [0-9a-f]{8}\n)*(hi [0-9a-f]{8}\n)?(lo [0-9a-f]{8}\n)?"
WORDS = re.compile(REGISTERS + rb"(fault [0-9]+ [0-9a-f]{8} [01]\n)?")
ANSWERS = re.compile(rb"((at|past) [0-9]+\n|none\n|ok\n|full\n|outside\n|unknown\n|[0-9a-f]{2}\n|" + REGISTERS + rb")*")
PACKETS = re.compile(rb"([+-]|\$([^#$}]|\}[^#$])*#[0-9a-f]{2})*")
REPORT = re.compile(rb"events [0-9]+\ntick [0-9]+\noff [01]\n(cpu [1-8] .*\n)+(task [0-9]+ .*\n)*console ([0-9]+)\n")
SUMMARY = re.compile(rb"after event [0-9]+, tick [0-9]+: .*\n")
ANY_BOARD = b"BOARD(1, 0x1000000);\n"

# What a case's program finds wrong may be told by clap, or in a line of its own.
HAS_OPTIONS = ("trace", "journal", "explore", "shrink", "line")
# These write as they go, so what was written before a fault stands.
WRITES_IN_PARTS = ("debug", "gdb", "trace")
# These warn, and what a command line names may be one of them.
WARN = ("asm", "run", "line")
# What a search has found is told, and then it ends so.
FAILS = b"board: a schedule fails\n"
# The ways in which streams fail: what becomes of descriptors 0, 1 and 2.
STREAMS = ("without 0", "without 1", "without 2", "without 012", "a full output", "a pipe that nobody reads",
           "a pipe that ends")
REFUSED = "a growth refused"
WAYS = (REFUSED, *STREAMS)


def fault_of(said):
    """Whose fault a line of standard error tells, and at which line: without memory for a hint it has other words."""
    found = FAULT.match(said)
    return found[0] if found else said


class Ended:
    """How a run ended: its status, what it wrote, with its warnings apart, and the files that it left."""

    def __init__(self, status, stdout, stderr, files):
        self.status, self.stdout, self.files = status, stdout, files
        self.warnings = WARNINGS.match(stderr).group()
        self.stderr = stderr[len(self.warnings):]


def read(name):
    with open(name, "rb") as file:
        return file.read()


def write(name, data):
    with open(name, "wb") as file:
        file.write(data)


def limit():
    resource.setrlimit(resource.RLIMIT_AS, (MEMORY, MEMORY))
    resource.setrlimit(resource.RLIMIT_CORE, (0, 0))


class Runs:
    """Runs a program in a folder. Refuser is the library that refuses growths, or nothing."""

    def __init__(self, program, folder, refuser):
        self.program, self.folder, self.refuser = program, folder, refuser
        self.status, self.way = None, "as it is"

    def run(self, arguments, given=b"", environment=None):
        ended = subprocess.run([self.program, *arguments], input=given, capture_output=True, check=False,
                               cwd=self.folder, timeout=SECONDS, preexec_fn=limit,
                               env={**os.environ, **(environment or {})})
        return Ended(ended.returncode, ended.stdout, ended.stderr, self.left())

    def left(self):
        """The files of the folder, but for those that a run with a stream that fails has written to."""
        return {name: read(f"{self.folder}/{name}") for name in os.listdir(self.folder)
                if not name.startswith("stream-") and os.path.isfile(f"{self.folder}/{name}")}

    def begin(self, case):
        """Has the folder the files of a case, and no others."""
        for name in os.listdir(self.folder):
            os.unlink(f"{self.folder}/{name}")
        for name, data in case.files.items():
            write(f"{self.folder}/{name}", data)

    def is_wrong(self, case, way=None):
        """What is wrong with the end of a run, nothing where it is right: first as it is, then in this or mostly in
        another way."""
        try:
            self.begin(case)
            ended = self.run(case.arguments, case.given)
            self.status = ended.status
            wrong = self.form(case, ended) or self.look(case, ended)
            if wrong or case.kind == "line":
                return wrong
            random = chance.Random(f"{case.seed} another way")
            way = way or random.choice((None, None, REFUSED, random.choice(STREAMS), random.choice(STREAMS)))
            if way == REFUSED and self.refuser:
                return self.refused(case, ended, random)
            return self.failing(case, ended, way, random.randrange(1, 200)) if way in STREAMS else None
        except subprocess.TimeoutExpired:
            return f"no end within {SECONDS} seconds"

    # What every run has to be like

    def form(self, case, ended):
        status, said = ended.status, ended.stderr
        if ended.warnings and case.kind not in WARN:
            return f"a warning {ended.warnings[:200]!r}"
        if not 0 <= status <= 5 or status == 2 and case.kind not in HAS_OPTIONS or (status == 5) != (said == FAILS):
            return f"status {status}"
        if said and status == 0 or status in (1, 3, 4, 5) and not LINE.fullmatch(said) \
                or status == 2 and not (WRONG_LINE.fullmatch(said) or case.kind != "line" and LINE.fullmatch(said)):
            return f"status {status} with {said[:200]!r} on standard error"
        if ended.stdout and status and said != FAILS and (
                case.kind not in WRITES_IN_PARTS or status < 3 and case.kind == "trace"):
            return f"status {status} with an output"
        if case.kind == "debug" and not ANSWERS.fullmatch(ended.stdout):
            return "an answer that no command has"
        if case.kind == "gdb" and not PACKETS.fullmatch(ended.stdout):
            return "an answer that is no packet"
        return None

    def look(self, case, ended):
        look = getattr(self, f"look_{case.kind}", None)
        return look(case, ended) if look else None

    # A growth that is refused

    def refused(self, case, ample, random):
        """The answer is that memory ran out, or the one that ample memory gives."""
        self.begin(case)
        counted = f"{self.folder}/stream-counted"
        self.run(case.arguments, case.given, {"LD_PRELOAD": self.refuser, "COUNTED": counted})
        if not os.path.exists(counted):
            return "a run that doesn't end by exit or _exit"
        number = random.randrange(1, int(read(counted)) + 2)
        self.way = f"growth {number} refused"
        self.begin(case)
        ended = self.run(case.arguments, case.given, {"LD_PRELOAD": self.refuser, "REFUSE": str(number)})
        if ended.status not in (ample.status, 3):
            return f"{self.way}: status {ended.status}, and {ample.status} with ample memory"
        if ended.status == 2 and ended.stderr == UNTOLD and not ended.stdout:
            return None
        wrong = self.form(case, ended)
        if wrong or ended.status == 3 and ample.status != 3:
            wrong = wrong or self.unfinished(case, ended, ample)
        elif case.kind in ("race", "explore"):  # a search may go on one by one then, and find another schedule
            wrong = self.look(case, ended)
        elif (ended.stdout, fault_of(ended.stderr), ended.files) != (ample.stdout, fault_of(ample.stderr), ample.files):
            wrong = "another output than with ample memory"
        elif ended.warnings not in (b"", ample.warnings):
            wrong = "other warnings than with ample memory"
        return f"{self.way}: {wrong}" if wrong else None

    def unfinished(self, case, ended, ample):
        """What is wrong with what a run left that had no memory: a front of the output, and no file."""
        if not ample.stdout.startswith(ended.stdout) and case.kind != "race":
            return "the output isn't a front of that with ample memory"
        if any(data != case.files.get(name, b"") for name, data in ended.files.items()):
            return "a file has changed, or something is in OUT"
        return None

    # A stream that fails

    def failing(self, case, ample, way, count):
        """Runs it with streams that fail. What needs one of them ends with status 4, and no file is taken for one."""
        self.way = way
        self.begin(case)
        ended = self.run_failing(case, way, count)
        wrong = self.wanted(case, ample, ended, way)
        return f"{way}: {wrong}" if wrong else None

    def run_failing(self, case, way, count):
        """Runs it; the streams that don't fail are files."""
        names = [f"{self.folder}/stream-{name}" for name in ("in", "out", "err")]
        write(names[0], case.given)
        closed = [int(it) for it in way[8:]] if way.startswith("without") else []
        first, second = os.pipe() if way.startswith("a pipe") else (None, None)

        def prepare():
            limit()
            for number in closed:
                os.close(number)

        target = "/dev/full" if way == "a full output" else names[1]
        with open(names[0], "rb") as into, open(target, "wb") as out, open(names[2], "wb") as err:
            if way == "a pipe that nobody reads":
                os.close(first)
            child = subprocess.Popen([self.program, *case.arguments], stdin=into,
                                     stdout=out if second is None else second, stderr=err, cwd=self.folder,
                                     preexec_fn=prepare)
            piped = b""
            if second is not None:
                os.close(second)
            if way == "a pipe that ends":
                piped = os.read(first, count)
                os.close(first)
            try:
                child.wait(SECONDS)
            finally:
                child.kill()
                child.wait()
        stdout = piped if way == "a pipe that ends" else b"" if target == "/dev/full" else read(names[1])
        return Ended(child.returncode, stdout, read(names[2]), self.left())

    def wanted(self, case, ample, ended, way):
        """What is wrong with a run whose streams failed in this way, beside the one whose streams didn't."""
        reads, writes = case.kind in ("words", "debug", "gdb"), bool(ample.stdout)
        statuses, is_whole = {ample.status}, False
        is_begun = case.kind == "words" or ample.status == 0 or case.kind == "gdb" and ample.status == 4
        if way in ("without 0", "without 012") and reads and is_begun:
            statuses = {4}
        elif way in ("without 2", "without 0"):
            is_whole = True
        elif writes and way == "a pipe that ends":
            # (what fits into a pipe is written before anyone sees that nobody reads on)
            statuses = {ample.status, 4}
        elif writes:
            statuses = {4}
        if ended.status not in statuses:
            return f"status {ended.status}, and {ample.status} as it is"
        if "2" not in way:
            has_line = LINE.fullmatch(ended.stderr) or ended.status == 2 and WRONG_LINE.fullmatch(ended.stderr)
            if bool(ended.stderr) != bool(ended.status) or ended.stderr and not has_line:
                return f"status {ended.status} with {ended.stderr[:200]!r} on standard error"
        if case.kind == "race":
            return None
        if is_whole and ended.stdout != ample.stdout:
            return "another output than as it is"
        if not ample.stdout.startswith(ended.stdout):
            return "an output that isn't a front of the one as it is"
        changed = {name for name, data in case.files.items() if ended.files.get(name) != data}
        return f"files that have changed: {' '.join(sorted(changed))}" if changed else None

    # What the output of each command has to be like

    def look_words(self, _, ended):
        if ended.status == 0 and not WORDS.fullmatch(ended.stdout):
            return "other lines than registers"
        return None

    def look_asm(self, _, ended):
        """What was assembled is read again."""
        made = ended.files.get("out.elf", b"")
        if ended.status or ended.stdout:
            return "an output" if made or ended.stdout else None
        if not made:
            return "no object file"
        write(f"{self.folder}/any.cfg", ANY_BOARD)
        # (the sixth byte of an object file is its byte order)
        write(f"{self.folder}/any.journal", b"board-journal 2 %s\n" % (b"little" if made[5] == 1 else b"big"))
        again = self.run(["run", "out.elf", "any.cfg", "any.journal"])
        return f"an object file that isn't read: {again.stderr!r}" if again.status not in (0, 3) else None

    def look_run(self, _, ended):
        if ended.status:
            return None
        front = REPORT.match(ended.stdout)
        if not front or len(ended.stdout) != front.end() + int(front.group(3)) + 1 or not ended.stdout.endswith(b"\n"):
            return "other lines than a report"
        return None

    def look_race(self, case, ended):
        """The journal that a race wrote makes the board that it reported."""
        if ended.status:
            return "a journal after a fault" if ended.files.get("out.journal") else None
        again = self.run(["run", "image.elf", "board.cfg", "out.journal"])
        if again.status == 3:
            return None
        return "another report than that of its journal" if again.stdout != ended.stdout else self.look_run(case, ended)

    def look_trace(self, case, ended):
        """The text is printable lines, a timeline JSON, and a picture XML."""
        if ended.status:
            return None
        out, words = ended.stdout, case.arguments
        if "--summary" in words:
            return None if SUMMARY.match(out) and out.endswith(b"\n") else "other lines than a summary"
        form = words[words.index("--format") + 1] if "--format" in words else "text"
        try:
            if form == "json":
                json.loads(out)
            elif form == "svg":
                xml.etree.ElementTree.fromstring(out)
            elif not re.match(rb" *event cpu who +where +what\n", out) or not re.fullmatch(rb"([ -~]*\n)+", out):
                return "other lines than those of a trace"
        except (ValueError, xml.etree.ElementTree.ParseError) as error:
            return f"no {form}: {error}"
        return None

    def look_explore(self, case, ended):
        """A search says that none fails, or what does, and leaves a journal that can be played."""
        found = ended.files.get("out.journal")
        if ended.status == 0:
            none = re.fullmatch(rb"none of ([0-9]+ schedules?|the schedules) fails: at most .*\nlooked for: .*\n"
                                rb"([0-9]+ came to an end, .*\n(warning: none came to an end, .*\n)?|"
                                rb"[0-9]+ places? w(as|ere) gone through, .*\n(warning: none is an end, .*\n)?)",
                                ended.stdout)
            return None if none and found is None else "other words than of a search that finds nothing"
        if ended.stderr != FAILS:
            return "a journal after a fault" if found else None
        if not ended.stdout.startswith(b"fails after ") or not ended.stdout.endswith(b"\n"):
            return "other words than of a search that finds something"
        return self.look_found(case, found)

    def look_found(self, case, found):
        """The journal of a search is one of the board."""
        if "--out" not in case.arguments:
            return "a journal that wasn't asked for" if found else None
        status = self.run(["run", "image.elf", "board.cfg", "out.journal"]).status
        return None if status in (0, 3) else "a journal that can't be played"

    def look_shrink(self, case, ended):
        """No more events and switches are left than there were."""
        if ended.status:
            return None
        told = re.match(rb"([0-9]+) of ([0-9]+) events are left, with ([0-9]+) of ([0-9]+) switches\nfails after .*\n",
                        ended.stdout)
        if not told or int(told[1]) > int(told[2]) or int(told[3]) > int(told[4]):
            return "other words than of events that are left"
        return self.look_found(case, ended.files.get("out.journal"))

    def look_journal(self, case, ended):
        """There are as many events as asked for, all of processors that are there, and ticks and raises where they
        should be."""
        if ended.status:
            return None
        words, lines = case.arguments, ended.stdout.decode(errors="replace").split("\n")
        order = words[words.index("--order") + 1] if "--order" in words else "big"
        runs = [re.fullmatch(r"(?:([SR]) (\d+)|(T)) (\d+)", line) for line in lines[1:-1]]
        if lines[0] != f"board-journal 2 {order}" or lines[-1] or None in runs:
            return "other lines than a journal's"
        counts = collections.Counter()
        for run in runs:
            counts[run[1] or run[3]] += int(run[4])
            if run[1] == "S" and not 1 <= int(run[2]) <= int(words[1]):
                return f"steps of processor {run[2]}"
        events = int(words[2])
        every = int(words[words.index("--tick-every") + 1]) if "--tick-every" in words else 0
        if sum(counts.values()) != events:
            return f"{sum(counts.values())} events, and not {events}"
        if "--raise" not in words and counts["T"] != (events // every if every else 0):
            return f"{counts['T']} ticks in {events} events"
        return None
