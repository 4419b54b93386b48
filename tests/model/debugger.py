"""What `board debug` answers, by the model: it shows the board after the first events of a journal, and finds stops."""
import re

from kernel import Board
from machine import RAM_START

MOST = 64
GOTO, REGS = re.compile(r"goto (0|[1-9][0-9]*)"), re.compile(r"regs (0|[1-9][0-9]*)")
AT = re.compile(r"(break|watch|mem) ([0-9A-Fa-f]{8})")


class Debugger:
    """A run of all events: `board` is the last state, `executed` and `changed` tell of each event.

    Positions depend on these alone. So the commands are answered in two passes: the first gives each its position, the
    second goes through the events once more and fills in what is shown at each.
    """

    def __init__(self, setup, runs):
        self.setup, self.board = setup, Board(setup)
        self.events = [(kind, number) for kind, number, count in runs for _ in range(count)]
        self.executed, self.changed = [], []
        for event in self.events:
            self.board.memory.changed = []
            self.executed.append(self.board.event(*event)[1])
            self.changed.append(self.board.memory.changed)
        self.position, self.breaks, self.watches = 0, set(), set()

    def answers(self, commands):
        answers, board, shown = [self.answer(command) for command in commands], Board(self.setup), {}
        for at, answer in enumerate(answers):
            if isinstance(answer, tuple):
                shown.setdefault(answer[0], []).append(at)
        for position, event in enumerate(self.events + [None]):
            for at in shown.get(position, ()):
                answers[at] = answers[at][1](board)
            if event:
                board.event(*event)
        return answers

    def answer(self, command):
        """An answer, or the position at which something is shown, and what shows it."""
        goto, regs, at = GOTO.fullmatch(command), REGS.fullmatch(command), AT.fullmatch(command)
        if goto and int(goto[1]) < 1 << 64:
            return self.goto(int(goto[1]))
        if regs and int(regs[1]) < 256:
            return self.position, lambda board: registers(board, int(regs[1]))
        if at and at[1] == "mem":
            return self.position, lambda board: byte(board, int(at[2], 16))
        if at:
            return self.add(self.breaks if at[1] == "break" else self.watches, int(at[2], 16))
        if command == "next":
            return self.go(range(self.position + 1, len(self.events)))
        if command == "back":
            return self.go(range(self.position - 1, -1, -1))
        return "unknown"

    def goto(self, position):
        if position > len(self.events):
            return f"past {len(self.events)}"
        self.position = position
        return f"at {position}"

    def go(self, positions):
        """Goes to the first of some positions whose event executes at a break or changes a watched byte."""
        for at in positions:
            if self.executed[at] in self.breaks or not self.watches.isdisjoint(self.changed[at]):
                return self.goto(at)
        return "none"

    def add(self, addresses, address):
        if address not in addresses and len(addresses) == MOST:
            return "full"
        addresses.add(address)
        return "ok"


def registers(board, number):
    context = board.processors[number].context() if number in board.processors else None
    return "\n".join(context.lines()) if context else "none"


def byte(board, address):
    inside = 0 <= address - RAM_START < len(board.memory.bytes)
    return f"{board.memory.bytes[address - RAM_START]:02x}" if inside else "outside"
