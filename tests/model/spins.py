"""Which processors spin, where, and since when: docs/TRACE.md, "Who spins", has the rule. It is an own choice."""
import copy

from kernel import Request
from machine import Fault, decode, execute

# How many instructions a loop has at most, and which of them store, whatever is stored.
LONGEST = 256
STORES = ("SB", "SH", "SW", "SWL", "SWR", "SC")


def state(context):
    """What an instruction begins with: the registers, HI, LO, where it goes on, and whether in a slot; or None."""
    if context is None:
        return None
    return *context.registers, context.hi, context.lo, context.pc, context.npc, context.slot


def next_instruction(context, memory):
    """A context's next instruction, or None where there is none."""
    try:
        return decode(memory.load(context.pc, 4))
    except Fault:
        return None


def is_executed(context, memory, number):
    """Executes an instruction of a context, unless it stores, calls or raises."""
    it = next_instruction(context, memory)
    if it is None or it.mnemonic in (*STORES, "SYSCALL"):
        return False
    try:
        execute(context, memory, number)
    except Fault:
        return False
    return True


def next_context(board, processor):
    """The context of which a processor's next step executes an instruction, if it does."""
    return None if board.off or board.acceptable(processor) else processor.context()


def loop(board, processor):
    """Where each instruction of a processor's loop stands, and what it begins with; nothing where it has no loop."""
    context, memory = copy.deepcopy(next_context(board, processor)), copy.copy(board.memory)
    # (a copy of the registers and of the links is enough, since no byte is stored)
    memory.links, begun = dict(memory.links), []
    while context and len(begun) < LONGEST:
        begun.append((context.pc, state(context)))
        if not is_executed(context, memory, processor.number):
            break
        if state(context) == begun[0][1]:
            return begun
    return []


def asked_lock(board, processor):
    """The spin lock that a processor's next instruction asks for, if the call is to come again."""
    context = next_context(board, processor)
    it = context and next_instruction(context, board.memory)
    if not it or it.mnemonic != "SYSCALL":
        return None
    request = Request(board, processor, context)
    if not request.call or request.call.name not in ("loc_spn", "iloc_spn") or request.refusal() is not None:
        return None
    return request.arguments[0] if request.object.holder else None


def executing(processor):
    """Who executes on a processor, and the registers there."""
    if processor.stopped:
        return "stopped", None
    who = f"handler {processor.line}" if processor.line is not None else processor.running and processor.running.id
    return who, state(processor.context())


def since(past, begun):
    """From which position on whoever executes on a processor now has executed there, and only its loop.

    `past` are the positions at which something else executed there than before, or with other registers: what it was.
    """
    who, among = past[-1][1][0], {its for _, its in begun}
    for at in reversed(range(len(past))):
        its, registers = past[at][1]
        if its != who or registers not in among:
            return f"event {past[at + 1][0]}"
    return "the start"


def spin(board, processor, past):
    """The line of a processor that spins, or None."""
    begun, lock = loop(board, processor), asked_lock(board, processor)
    what = f"{len(begun)} instructions that change nothing"
    if lock is not None:
        context = processor.context()
        begun, what = [(context.pc, state(context))], f"asks for lock {lock}"
    if not begun:
        return None
    place = min(address for address, _ in begun)
    return f"cpu {processor.number} spins since {since(past, begun)} at {place:08x}: {what}"


def spins(board, pasts):
    """The lines of all processors that spin; `pasts` are what executed on each processor, by its number."""
    found = (spin(board, it, pasts[number]) for number, it in board.processors.items())
    return [line for line in found if line]
