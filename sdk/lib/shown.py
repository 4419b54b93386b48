"""What `board` prints of a program in C, with more to read: beside the numbers of tasks, other objects and lines the
names that the configuration has for them, and files and lines of C where `board` shows none, as of a service call that
a header of the kit makes, of a return address, and of the switches of a search."""
import os
import re

# Who executes.
WHO = r"(task|(?:cyclic |alarm )?handler) (\d+)"
# A line of `board trace`: event and processor, who executes (in a column, for which the name of a time handler is too
# wide), where (in a column), and what happens.
COLUMNS = re.compile(r"([ \d]{10} (?:[1-8]| )   )((?:cyclic|alarm) handler \d+|.{10}) (\S* *)(.*)")
EXECUTES = re.compile(WHO)
HEAD = "     event cpu who        where               what"
HAS_LINE = re.compile(r"; [^ ;]+:\d+$")
# Where something is: a place with its address and without a line; a return address; a place of a switch.
PLACE = re.compile(r"\bat (?:[\w.$]+(?:\+0x[0-9a-f]+)? )?\(([0-9a-f]{8})\)")
RETURN = re.compile(r"\$ra is ([\w.$]+\+0x[0-9a-f]+|[0-9a-f]{8})")
SWITCH = re.compile(r" *\d+  (?:processor \d+ |.*; processor \d+ )")
SWITCHED = re.compile(r"(?: stops before .*? at| goes on at) ([\w.$]+(?:\+0x[0-9a-f]+)?)(?=;|$)")
START = re.compile(r"(task|handler|cyclic|alarm)_(\d+)")
# The file that start.S reads, which is made of the configuration.
ENTRIES = "entries.inc"


class Shown:
    """A program, and its configuration's names, beside what is printed of it."""

    def __init__(self, names, objects):
        self.names, self.objects, self.lines = names, objects, {}
        self.width = max([10] + [len(objects.named(f"{kind} {number}")) for kind, number in objects.executing()])

    def line_of(self, address):
        """The file and the line of C of an address, or nothing."""
        if address not in self.lines:
            found = self.names().frame(f"{address:08x}")
            known = found and found[2].isdigit() and not found[1].startswith("??")
            self.lines[address] = f"{os.path.basename(found[1])}:{found[2]}" if known else None
        return self.lines[address]

    def address(self, place):
        """That of a place as `board` prints it, by a symbol or by its digits, or nothing."""
        if re.fullmatch("[0-9a-f]{8}", place):
            return int(place, 16)
        found = self.names().place(place)
        return found[0] if found else None

    def at(self, place, before=0):
        """The line of C at a place, or so many bytes before it."""
        address = self.address(place)
        return self.line_of(address - before) if address is not None and address >= 0x80000000 else None

    def columned(self, head, who, where, what):
        """A line of a trace, whose column of who executes is as wide as the names."""
        line = None if not EXECUTES.match(who) or HAS_LINE.search(what) else self.at(where.rstrip())
        who = self.objects.named(who.rstrip()).ljust(self.width)
        text = self.told(what)
        return f"{head}{who} {where}{text}{f'; {line}' if line else ''}".rstrip()

    def told(self, text):
        """A text of any other kind."""
        text = PLACE.sub(lambda it: self.with_line(it[0][:-1], self.line_of(int(it[1], 16)), ", {})", ")"), text)
        text = RETURN.sub(lambda it: self.with_line(it[0], self.at(it[1], 8), " ({})"), text)
        if SWITCH.match(text):
            text = SWITCHED.sub(self.switched, text)
        return self.objects.named(text)

    def switched(self, found):
        """Where a processor stops or goes on: the line of C, or whose start it is."""
        start = START.fullmatch(found[1])
        if start:
            name = self.objects.name(*start.groups())
            return f"{found[0]} ({name})" if name else found[0]
        return self.with_line(found[0], self.at(found[1]), " ({})")

    @staticmethod
    def with_line(text, line, form, otherwise=""):
        return text + (form.format(line) if line and not line.startswith(f"{ENTRIES}:") else otherwise)

    def line(self, text):
        """A line that `board` prints."""
        if text == HEAD:
            return text.replace("who       ", "who       " + " " * (self.width - 10))
        found = COLUMNS.fullmatch(text)
        return self.columned(*found.groups()) if found else self.told(text)

    def text(self, text):
        return "\n".join(map(self.line, text.split("\n")))
