"""What the kit's scripts share: a program for the board, its names, and runs of it."""
import os
import re
import shutil
import subprocess
import sys
import tempfile
import shown

CROSS = os.environ.get("CROSS", "mips-linux-gnu-")
# A number as it is written after a name: decimal, or hexadecimal with 0x.
NUMBER = re.compile(r"0x[0-9a-fA-F]+|0|[1-9][0-9]*")
# How `trace` calls the objects of each kind of name, and which calls begin with an ID of that kind.
WORDS = {"task": "task", "semaphore": "semaphore", "event flag": "flag", "data queue": "queue", "lock": "lock",
         "mutex": "mutex", "pool": "pool", "mailbox": "mailbox", "line": "line", "handler": "line",
         "cyclic handler": "cyclic", "alarm handler": "alarm"}
CALLS = {"sem": "semaphore", "flg": "flag", "dtq": "queue", "spn": "lock", "mtx": "mutex", "mpf": "pool",
         "mbx": "mailbox", "cyc": "cyclic", "alm": "alarm", "tsk": "task", "wup": "task", "wai": "task", "act": "task", "pri": "task"}
NO_ID = ("dly_tsk", "slp_tsk", "tslp_tsk", "ext_tsk")
NAMED = re.compile(rf"\b({'|'.join(WORDS)}) (\d+)\b|\b(\w+_({'|'.join(CALLS)}))\((\d+)\b")
# The line of a trace where an assertion doesn't hold (stop.c).
ASSERTION = re.compile(rf"(?m)^ *(\d+) (\d) +{shown.WHO} +board_stop(?:\+0x[0-9a-f]+)? +Bp: ")
# The label in start.S where a task's function returns to.
RETURNED = re.compile(r"returned_from_(\w+)\.(\d+)")
# Service calls and the like are compiled into their callers, so a place in these is told as the caller's.
INLINED = re.compile(r"(^|/)(kernel|board)\.h$")


def handler_name(line):
    """How the handler of a line is called: from line 32 on it is a time handler."""
    kind = "alarm" if line % 2 else "cyclic"
    return f"handler of line {line}" if line < 32 else f"{kind} handler {(line - 30) // 2}"


def fail(text, status=2):
    print(text, file=sys.stderr)
    sys.exit(status)


def look_for(board, image):
    """Ends with a line where the program of the board or an image isn't there."""
    if not os.access(board, os.X_OK):
        fail(f"there is no program {board}: `make board` or `make unpack` in the clone makes it, or BOARD names it")
    if not os.path.isfile(image):
        fail(f"there is no object file {image}")


def data_beside(journal):
    """The options of `board` for the data of a journal, NAME.journal: those of the lines `SYMBOL = FILE` of NAME.data, if
    it is there. The files are named from its folder on, and `#` begins a comment."""
    path = journal.removesuffix(".journal") + ".data"
    if path == f"{journal}.data" or not os.path.exists(path):
        return []
    found = []
    with open(path, encoding="utf-8", errors="replace") as file:
        for number, line in enumerate(file, 1):
            place, _, name = (it.strip() for it in line.partition("#")[0].partition("="))
            if place and name:
                found += ["--data", f"{place}={os.path.join(os.path.dirname(path), name)}"]
            elif line.partition("#")[0].strip():
                fail(f"{path}, line {number}: a line is SYMBOL = FILE, or 0xADDRESS = FILE")
    return found


def keep_data(journal, kept):
    """Leaves the data of a journal beside another one, which is kept of it."""
    data = data_beside(journal)
    path = kept.removesuffix(".journal") + ".data"
    if data:
        with open(path, "w", encoding="utf-8") as file:
            for place, _, name in (it.partition("=") for it in data[1::2]):
                file.write(f"{place} = {os.path.abspath(name)}\n")
    elif os.path.exists(path):
        os.remove(path)


class Names:
    """The symbols of an image, and its lines."""

    def __init__(self, image):
        if not shutil.which(f"{CROSS}nm"):
            fail(f"there is no {CROSS}nm, which reads the names of a program: apt-get install binutils-mips-linux-gnu")
        self.image, self.places, self.at, self.kinds = image, {}, {}, {}
        listed = subprocess.run([f"{CROSS}nm", "-n", "-S", image], stdout=subprocess.PIPE, check=True).stdout.decode()
        found = [line.split() for line in listed.split("\n")]
        found = [(int(it[0], 16) & 0xFFFFFFFF, int(it[1], 16) if len(it) == 4 else None, it[-2], it[-1])
                 for it in found if len(it) >= 3]
        for address, size, kind, name in found:
            if kind != "a" and 0x80000000 <= address < 0x81000000:
                self.places.setdefault(name, (address, size or self.size_of_word(address, found)))
                self.at.setdefault(address, name)
                self.kinds.setdefault(name, kind)
        self.addresses = sorted(self.at)
        self.lines = subprocess.Popen([f"{CROSS}addr2line", "-aife", image], stdin=subprocess.PIPE,
                                      stdout=subprocess.PIPE, text=True)

    @staticmethod
    def size_of_word(address, found):
        """Of a symbol that has no size: up to the next one, but one word at most."""
        after = min((it[0] for it in found if it[0] > address), default=address + 4)
        return min(after - address, 4 - address % 4)

    def place(self, word):
        """Address and size of what a word names, if it names something."""
        name, plus, offset = word.partition("+")
        if name not in self.places or (plus and not NUMBER.fullmatch(offset)):
            return None
        address, size = self.places[name]
        return (address + int(offset, 0), 1) if plus else (address, size)

    def is_variable(self, name):
        """Whether a symbol is one of data. (Of what `board asm` makes nobody knows.)"""
        return self.kinds.get(name, "?") in "bBdDgGrRsSC"

    def below(self, address):
        """The nearest symbol that doesn't lie above an address, or nothing."""
        return next((it for it in reversed(self.addresses) if it <= address), None)

    def frames(self, address):
        """The functions that an address belongs to, the innermost first, each as (function, path, line)."""
        self.lines.stdin.write(f"{address}\n0\n")
        self.lines.stdin.flush()
        self.lines.stdout.readline()
        found = []
        while True:
            function = self.lines.stdout.readline().strip()
            if function == "0x00000000":
                self.lines.stdout.readline()
                self.lines.stdout.readline()
                return found
            found.append(self.frame_of(function, self.lines.stdout.readline()))

    @staticmethod
    def frame_of(function, line):
        """What two lines of addr2line say."""
        path, _, number = re.sub(r" \(discriminator \d+\)", "", line.strip()).rpartition(":")
        return function, path, number

    def frames_of(self, addresses):
        """The same for many addresses at once."""
        ran = subprocess.run([f"{CROSS}addr2line", "-aife", self.image], text=True, check=True, stdout=subprocess.PIPE,
                             input="".join(f"{it:08x}\n" for it in addresses))
        found = []
        lines = iter(ran.stdout.split("\n")[:-1])
        for line in lines:
            if re.fullmatch("0x[0-9a-f]{8}", line):
                found.append([])
            else:
                found[-1].append(self.frame_of(line, next(lines)))
        return found

    def frame(self, address):
        """The function and the line of an address that a reader looks for, or nothing."""
        found = [it for it in self.frames(address) if it[0] != "??"]
        return next((it for it in found if not INLINED.search(it[1])), found[-1] if found else None)

    def name(self, address):
        """A function with its line; where the image doesn't know, the nearest symbol."""
        found = self.frame(address)
        if found and not found[1].startswith("??"):
            return f"{found[0]} ({os.path.basename(found[1])}:{found[2]})"
        number = int(address, 16)
        below = self.below(number)
        if below is None:
            return "?"
        return self.at[below] + (f"+0x{number - below:x}" if number > below else "")

    def told(self, address):
        """The same as a line of a list."""
        found = self.frame(address)
        known = found and not found[1].startswith("??")
        return f"{found[0]} {os.path.basename(found[1])}:{found[2]}" if known else self.name(address)


class Objects:
    """The names that a configuration gives to its tasks, other objects and lines."""

    def __init__(self, config):
        self.names = {}
        path = os.path.join(config.removesuffix(".cfg"), "names")
        if os.path.exists(path) and os.path.exists(config):
            # Both are made of the same text, so they have the same statements in the same order.
            names = re.findall(r'@@(\w+) "((?:[^"\\]|\\.)*)"', self.read(path))
            numbers = re.findall(r"\b(?:CRE_(?:TSK|SEM|FLG|DTQ|SPN|MTX|MPF|MBX|CYC|ALM)|DEF_INH)\s*\(\s*(\w+)",
                                 self.read(config))
            for (kind, name), number in zip(names, numbers):
                if len(names) == len(numbers) and name.isidentifier() and NUMBER.fullmatch(number):
                    self.names[kind, int(number, 0)] = name

    @staticmethod
    def read(path):
        with open(path, encoding="latin-1") as file:
            return file.read()

    def name(self, word, number):
        """That of a task or another object, or nothing."""
        return self.names.get((WORDS.get(word, word), int(number)))

    def executing(self):
        """What executes and has a name: tasks and handlers, with their numbers."""
        kinds = {"task": "task", "line": "handler", "cyclic": "cyclic handler", "alarm": "alarm handler"}
        return [(kinds[kind], number) for kind, number in self.names if kind in kinds]

    def named(self, text):
        """A text of `board`, with the names beside the numbers: `task 1 (GREETER)`, `wai_sem(PRESSED)`."""
        return NAMED.sub(self.one_named, text)

    def one_named(self, found):
        word, number, call, ending, argument = found.groups()
        if word:
            name = self.name(word, number)
            return f"{found[0]} ({name})" if name else found[0]
        name = self.names.get((CALLS[ending], int(argument))) if call not in NO_ID else None
        return f"{call}({name}" if name else found[0]


class Debugger:
    """The debugger of the board."""

    def __init__(self, board, image, config, journal, data=()):
        self.program = subprocess.Popen([board, "debug", image, config, journal, *data], stdin=subprocess.PIPE,
                                        stdout=subprocess.PIPE, text=True, errors="replace")

    def lines(self, command):
        """The lines of its answer. An empty command after it is answered by `unknown`, which ends them."""
        self.program.stdin.write(f"{command}\n\n")
        self.program.stdin.flush()
        found = []
        while True:
            line = self.program.stdout.readline()
            if not line:
                sys.exit(self.program.wait())
            if found and line == "unknown\n":
                return found
            found.append(line.rstrip("\n"))

    def answer(self, command):
        return self.lines(command)[0]

    def bytes_at(self, address, count):
        return bytes(int(self.answer(f"mem {it:08x}"), 16) for it in range(address, address + count))

    def text_at(self, address):
        found = b""
        while len(found) < 300 and 0x80000000 <= address:
            shown = self.answer(f"mem {address:08x}")
            if shown in ("outside", "00"):
                break
            found, address = found + bytes.fromhex(shown), address + 1
        return found.decode(errors="replace")

    def close(self):
        self.program.stdin.close()
        return self.program.wait()


class Report:
    """What `board run` says at the end."""

    def __init__(self, output):
        head, _, rest = output.partition(b"console ")
        self.text = head.decode(errors="replace")
        self.console = rest.partition(b"\n")[2][:-1]
        self.events = int(re.search(r"(?m)^events (\d+)$", self.text).group(1))
        self.is_off = "\noff 1\n" in self.text
        self.processors = re.findall(r"(?m)^cpu \d+ .*$", self.text)

    def stopped(self):
        """The processors that an exception in a handler has stopped."""
        return [it for it in self.processors if it.endswith(" stopped")]

    def running(self):
        """What executes still, on a board that is on: the steps ran out there."""
        found = [re.match(r"cpu (\d+) (?:(task \d+)|handler (\d+) pc (\w+))", it) for it in self.processors]
        # (Where a task is `trace --summary` says.)
        return [] if self.is_off else [f"processor {it[1]} runs {it[2] or self.handler(*it.groups()[2:])}"
                                       for it in found if it]

    @staticmethod
    def handler(line, place):
        """A handler of an interrupt line, and where it is."""
        name = f"handler {line}" if int(line) < 32 else handler_name(int(line))
        return f"{name} at {place}"


def asked(words, is_quiet):
    """What `board` answers. What it warns of at the end of a run the kit says in its own words: it isn't handed on, but
    on a terminal, where `board` says how far a long run is, unless that is to be quiet."""
    if sys.stderr.isatty() and not is_quiet:
        return subprocess.run(words, stdout=subprocess.PIPE, check=False)
    ran = subprocess.run(words, stdout=subprocess.PIPE, stderr=subprocess.PIPE, check=False)
    said = [it for it in ran.stderr.splitlines(True) if not it.startswith(b"board: warning: the run: ")]
    sys.stderr.write(b"".join(said).decode(errors="replace"))
    sys.stderr.flush()
    return ran


class Program:
    """A program with its configuration, and with the data of a journal."""

    def __init__(self, board, image, config, journal):
        self.board, self.image, self.config, self.data = board, image, config, data_beside(journal)
        self.objects, self.is_quiet = Objects(config), False
        look_for(board, image)
        with open(image, "rb") as file:
            self.is_little = file.read(6)[5:] == b"\1"
        self.names_found = None
        self.shown = shown.Shown(self.names, self.objects)

    def names(self):
        if self.names_found is None:
            self.names_found = Names(self.image)
        return self.names_found

    def ordered(self, path, out):
        """A journal for the program's byte order."""
        with open(out, "wb") as file:
            if subprocess.run([os.path.join(os.path.dirname(os.path.dirname(__file__)), "ordered"), self.image, path],
                              stdout=file, check=False).returncode != 0:
                return False
        return True

    def run(self, journal):
        """The report of a journal, or nothing where it has a fault, which `board` tells."""
        ran = asked([self.board, "run", self.image, self.config, journal, *self.data], self.is_quiet)
        return Report(ran.stdout) if ran.returncode == 0 else None

    def traced(self, journal, *options):
        words = [self.board, "trace", self.image, self.config, journal, *self.data, *options]
        return asked(words, self.is_quiet or "--summary" in options).stdout.decode(errors="replace")

    def has_trace(self):
        listed = subprocess.run([self.board, "--help"], stdout=subprocess.PIPE, check=False).stdout.decode()
        return re.search(r"(?m)^ *trace ", listed) is not None

    def stop(self, journal, report):
        """Why the program has stopped itself (sdk/lib/stop.c), and the position after that. Each is nothing where it
        isn't so."""
        place = self.names().place("board_stopped")
        if not place:
            return None, None
        debugger = Debugger(self.board, self.image, self.config, journal, self.data)
        debugger.answer(f"goto {report.events}")
        order = "little" if self.is_little else "big"

        def words(address, count):
            found = debugger.bytes_at(address, 4 * count)
            return [int.from_bytes(found[4 * it:4 * it + 4], order) for it in range(count)]

        why, position = self.why(debugger, words(place[0], 6), report), None
        if why and report.stopped() and debugger.answer(f"break {self.names().place('board_trap')[0]:08x}") == "ok":
            debugger.answer("goto 0")
            moved = debugger.answer("next")
            position = int(moved[3:]) + 1 if moved.startswith("at ") else None
        debugger.close()
        return why, position

    def why(self, debugger, words, report):
        taken, why, place, task, processor, stack = words
        if not taken:
            return None
        handlers = [it[len("handler_stack_"):] for it, at in self.names().places.items()
                    if at[0] == stack and it.startswith("handler_stack_")]
        who = f"task {task}, processor {processor}" if task else handler_name(int(handlers[0], 0)) if handlers else "?"
        if not task and len(report.stopped()) == 1:
            who += f", processor {report.stopped()[0].split()[1]}"
        return f"{debugger.text_at(why)} {place:08x} ({who})"

    def assertion(self, journal, summary=None):
        """The first assertion that doesn't hold: what it says, and whose it is; and the position after it. Each is
        nothing if all hold. `summary` is that of the journal, if it is known."""
        if "last exception at" not in (self.traced(journal, "--summary") if summary is None else summary):
            return None, None
        found = ASSERTION.search(self.traced(journal))
        if not found:
            return None, None
        event, cpu, kind, number = found.groups()
        debugger = Debugger(self.board, self.image, self.config, journal, self.data)
        debugger.answer(f"goto {event}")
        registers = dict(it.split() for it in debugger.lines(f"regs {cpu}"))
        file, line, condition = (int(registers.get(f"${it}", "0"), 16) for it in (4, 5, 6))
        who = f"handler of line {number}" if kind == "handler" else f"{kind} {number}"
        text = f"{debugger.text_at(file)}:{line}: this doesn't hold: {debugger.text_at(condition)}"
        debugger.close()
        return f"{text} ({who}, processor {cpu})", int(event) + 1

    def explained(self, journal, report, console=b""):
        """What tells why: an assertion that doesn't hold, or how a handler has stopped itself; the summary of `board
        trace` where the program has that, else the report; the functions in C of the addresses that were shown."""
        why, position = self.assertion(journal)
        if why is None:
            why, position = self.stop(journal, report)
        found = [why] if why and why.encode() not in console else []
        running = report.running()
        if running:
            found.append(f"the steps of the journal have run out: the board is on, and {', '.join(running)}")
        if self.has_trace():
            to = ["--to", str(position)] if position is not None else []
            found.append(self.traced(journal, "--summary", *to).rstrip("\n"))
        else:
            found.append(report.text.rstrip("\n"))
        text = "\n".join(found)
        shown = re.findall(r"\b80[0-9a-f]{6}\b", console.decode(errors="replace") + text)
        return self.shown.text(text) + \
            "".join(f"\n{it} is {self.place_told(it)}" for it in sorted(set(shown))[:20])

    def place_told(self, address):
        """What is at an address: where a task's function has returned to, or a function in C with its line."""
        below = self.names().below(int(address, 16))
        returned = RETURNED.fullmatch(self.names().at.get(below, ""))
        if not returned:
            return self.names().told(address)
        task = self.objects.named(f"task {returned[2]}")
        return f"where {task} ends: {returned[1]} has returned"


def cut(journal, position):
    """Leaves out the events of a journal from a position on."""
    with open(journal, encoding="latin-1") as file:
        first, *lines = file.read().split("\n")
    kept = []
    for line in filter(None, lines):
        *words, count = line.split(" ")
        if position > 0:
            kept.append(" ".join([*words, str(min(int(count), position))]))
        position -= int(count)
    with open(journal, "w", encoding="latin-1") as file:
        file.write("\n".join([first, *kept, ""]))


def difference(wanted, got):
    """How a console differs from the one that is wanted, with a few lines around."""
    with tempfile.TemporaryDirectory() as folder:
        for name, text in (("wanted", wanted), ("got", got)):
            with open(f"{folder}/{name}", "wb") as file:
                file.write(text)
        ran = subprocess.run(["diff", "-a", "-U", "3", f"{folder}/wanted", f"{folder}/got"], stdout=subprocess.PIPE,
                             check=False)
    return "\n".join(ran.stdout.decode(errors="replace").rstrip("\n").split("\n")[2:])
