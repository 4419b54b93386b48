"""What the help texts of `board` say: of the program, and of each command."""
import re
import subprocess

OPTION = re.compile(r"  (?:(-\w), |    )(--[\w-]+)(?: <(\w+)>)? {2,}(.*)")
ARGUMENT = re.compile(r"  <(\w+)> +(.*)")
COMMAND = re.compile(r"  ([a-z]+) +(.*)")


class Help:
    """A help text: what it is about, its usage, its sections. Each of these is a title, or nothing, with lines."""

    def __init__(self, program, *command):
        ran = subprocess.run([program, *command, "--help"], stdout=subprocess.PIPE, check=True)
        self.name = " ".join(("board", *command))
        self.about, _, rest = ran.stdout.decode().partition("\n\n")
        self.usage = re.match(r"Usage: (.*)\n", rest)[1]
        self.sections = [self.section(it) for it in re.split(r"\n\n", rest.split("\n", 1)[1].strip("\n"))]

    @staticmethod
    def section(text):
        first, _, rest = text.partition("\n")
        return (first[:-1], rest.split("\n")) if re.fullmatch(r"[A-Z].*:", first) and rest.startswith("  ") else \
            (None, text.split("\n"))

    def lines(self, title):
        return next((lines for it, lines in self.sections if it == title), [])

    def options(self):
        """Short name, long name, value and text of each; what isn't there is an empty text."""
        return [found.groups("") for found in map(OPTION.fullmatch, self.lines("Options")) if found]

    def arguments(self):
        return [found.groups() for found in map(ARGUMENT.fullmatch, self.lines("Arguments")) if found]

    def commands(self):
        return [found.groups() for found in map(COMMAND.fullmatch, self.lines("Commands")) if found]


def version(program):
    """That of the program: `1.0`."""
    ran = subprocess.run([program, "--version"], stdout=subprocess.PIPE, check=True)
    return ran.stdout.decode().split()[1]


def all_of(program):
    """The program's help, and that of each command but `help`."""
    first = Help(program)
    return first, [Help(program, name) for name, _ in first.commands() if name != "help"]
