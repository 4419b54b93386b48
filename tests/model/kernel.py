"""The kernel and the board of the model: tasks, objects, time, the table of service calls, events, the report.

The uITRON 4.0 specification says what the calls do; TOPPERS/FMP what mact_tsk, imact_tsk, mig_tsk, get_pid, mget_tid,
mrot_rdq, ista_alm, istp_alm and those of spin locks do, in handlers too. From where a call may come, the order of its refusals, that a
call spins by coming again, that calls above 63 are there in the profile alone, that the ref_ calls tell a word each,
which block of a memory pool is handed out, where pools lie, that snd_mbx has the priority as an argument and refuses a
257th message, that time handlers are handlers of interrupt lines above 31, put_chr, ext_ker, ret_int and the events are
own choices.
"""
import collections

from machine import Context, Fault, Memory, RAM_START, WORD, execute, signed

E_OK, E_RSFN, E_PAR, E_ID, E_CTX, E_ILUSE = 0, -10, -17, -18, -25, -28
E_OBJ, E_NOEXS, E_QOVR, E_RLWAI, E_TMOUT = -41, -42, -43, -49, -50
ANSWERS = {value: name for name, value in list(globals().items()) if name.startswith("E_")}
CONSOLE_BYTES = 65536
# How many messages a mailbox keeps.
MOST_MESSAGES = 256
TFIFO, TPRI, INHERIT, CEILING = range(4)
# What a call writes to $v0 and $v1 where it waits or doesn't come back, and where it is just done; and what stands in
# place of it where the call is to come again.
SILENT, DONE, AGAIN = (), (E_OK,), ("again",)

# What a board is made of. Objects stand by their IDs, lines by their numbers, tasks in the order of their statements;
# `standard` where it has the profile, which alone has mutexes, memory pools (which lie in the order of their
# statements), mailboxes, cyclic handlers and alarm handlers.
Setup = collections.namedtuple("Setup",
                               "processors ram order segments tasks semaphores flags queues spin_locks lines standard "
                               "mutexes pools mailboxes cyclics alarms", defaults=[False, {}, {}, {}, {}, {}])
TaskSetup = collections.namedtuple("TaskSetup", "id processor starts argument address priority size stack")
PoolSetup = collections.namedtuple("PoolSetup", "by_priority count size area")
CyclicSetup = collections.namedtuple("CyclicSetup", "processor argument address starts keeps period phase")
AlarmSetup = collections.namedtuple("AlarmSetup", "processor argument address")


class TaskList(list):
    """Tasks in the order of their coming, or by priority, and among equals in the order of their coming."""

    def __init__(self, name, by_priority):
        super().__init__()
        self.name, self.by_priority = name, by_priority

    def enter(self, task):
        lower = (at for at, other in enumerate(self) if self.by_priority and other.priority > task.priority)
        self.insert(next(lower, len(self)), task)


class Task:
    """A task; `request` is a queued activation: None, 0 from act_tsk, or the processor that mact_tsk named."""

    def __init__(self, setup, stack):
        self.id, self.processor, self.initial_priority = setup.id, setup.processor, setup.priority
        self.argument, self.address, self.stack = setup.argument, setup.address, stack
        self.state, self.priority, self.request, self.wakeup = "dormant", setup.priority, None, False
        self.base = setup.priority
        # The list that it waits in (of a semaphore, say, or of the sleepers), what it wants there, and until when.
        self.waits_in = self.wanted = self.due = None
        self.context = Context(self.address, self.argument, self.stack)


class Semaphore:
    def __init__(self, by_priority, count, maximum):
        self.count, self.maximum, self.waiters = count, maximum, TaskList("semaphore", by_priority)


class Flag:
    def __init__(self, by_priority, many, clears, pattern):
        self.many, self.clears, self.pattern, self.waiters = many, clears, pattern, TaskList("flag", by_priority)


class Queue:
    """A data queue; its receivers wait in the order of their coming, whatever its attribute."""

    def __init__(self, by_priority, capacity):
        self.capacity, self.data = capacity, collections.deque()
        self.senders, self.receivers = TaskList("sender", by_priority), TaskList("receiver", False)


class Mutex:
    """A mutex of a protocol (TFIFO, TPRI, INHERIT, CEILING); `owner` is the task that has it, if one does."""

    def __init__(self, protocol, ceiling):
        self.protocol, self.ceiling, self.owner = protocol, ceiling, None
        self.waiters = TaskList("mutex", protocol != TFIFO)

    def is_above(self, priority):
        """Whether a priority is higher than its ceiling."""
        return self.protocol == CEILING and priority < self.ceiling


class Pool:
    """A fixed memory pool; `out` has the addresses of the blocks that tasks have."""

    def __init__(self, setup, start):
        self.blocks = [start + number * distance(setup) for number in range(setup.count)]
        self.out, self.waiters = set(), TaskList("block", setup.by_priority)

    def there(self):
        return [address for address in self.blocks if address not in self.out]


class Mailbox:
    """A mailbox; `messages` has their priorities and addresses, the one that is received next first."""

    def __init__(self, by_priority, by_message, priorities):
        self.by_message, self.priorities, self.messages = by_message, priorities, []
        self.waiters = TaskList("message", by_priority)


class Cyclic:
    """A cyclic handler; `due` is the tick at which it is due next, None where it is stopped."""

    def __init__(self, setup):
        self.setup, self.due = setup, None
        if setup.starts:
            self.due = setup.phase + 1

    def start(self, now):
        """After a whole period, or at the next of the times that are counted from boot."""
        if not self.setup.keeps:
            self.due = now + self.setup.period + 1
            return
        self.due = self.setup.phase + 1
        while self.due <= now:
            self.due += self.setup.period

    def passed(self):
        self.due += self.setup.period


class Alarm:
    """An alarm handler; `due` as above."""

    def __init__(self, setup):
        self.setup, self.due = setup, None

    def start(self, now, ticks):
        self.due = now + ticks + 1

    def passed(self):
        self.due = None


class SpinLock:
    """`holder` is the processor that holds it, if one does."""

    def __init__(self):
        self.holder = None


class Processor:
    """`line` and `handler` are those of the interrupt that it handles, `lock` is the spin lock that it holds."""

    def __init__(self, number):
        self.number, self.ready, self.running = number, TaskList("ready", True), None
        self.line = self.handler = self.lock = None
        self.locked = self.disabled = self.stopped = False
        self.last_fault = None

    def is_held(self):
        return self.line is not None or self.locked or self.disabled or self.stopped

    def take(self, lock):
        """Holds a spin lock, which locks its CPU."""
        self.lock, lock.holder, self.locked = lock, self, True

    def unlock(self):
        """Ends CPU lock, and gives up the spin lock that it holds."""
        if self.lock:
            self.lock.holder = None
        self.lock, self.locked = None, False

    def context(self):
        """What its next instruction works on, if it has one."""
        if self.stopped:
            return None
        return self.handler or (self.running.context if self.running else None)


class Board:
    def __init__(self, setup):
        self.counts = collections.Counter()
        self.memory = Memory(setup.ram, setup.order, self.counts)
        for address, data in setup.segments:
            self.memory.bytes[address - RAM_START:address - RAM_START + len(data)] = data
        self.processors = {number: Processor(number) for number in range(1, setup.processors + 1)}
        self.sleepers, self.delayed = TaskList("sleep", False), TaskList("delay", False)
        self.semaphores = {key: Semaphore(*it) for key, it in setup.semaphores.items()}
        self.flags = {key: Flag(*it) for key, it in setup.flags.items()}
        self.queues = {key: Queue(*it) for key, it in setup.queues.items()}
        self.spin_locks = {key: SpinLock() for key in setup.spin_locks}
        self.mutexes = {key: Mutex(*it) for key, it in sorted(setup.mutexes.items())}
        self.pools = {key: Pool(it, start) for (key, it), start in zip(setup.pools.items(), areas(setup))}
        self.mailboxes = {key: Mailbox(*it) for key, it in setup.mailboxes.items()}
        self.lines, self.pending = setup.lines, set()
        self.cyclics = {key: Cyclic(it) for key, it in setup.cyclics.items()}
        self.alarms = {key: Alarm(it) for key, it in setup.alarms.items()}
        # (by the line that is raised where one is due)
        self.timers = {30 + 2 * key: it for key, it in self.cyclics.items()}
        self.timers |= {31 + 2 * key: it for key, it in self.alarms.items()}
        self.now, self.off, self.console = 0, False, bytearray()
        # (the system time before the first tick)
        self.standard, self.clock = setup.standard, 0
        tasks = {it.id: Task(it, stack) for it, stack in zip(setup.tasks, stacks(setup))}
        self.tasks = dict(sorted(tasks.items()))
        for it in setup.tasks:
            if it.starts:
                self.start(self.tasks[it.id], it.processor)
        self.dispatch()

    # Tasks

    def make_ready(self, task):
        task.state = "ready"
        self.processors[task.processor].ready.enter(task)

    def leave_ready(self, task):
        self.processors[task.processor].ready.remove(task)

    def start(self, task, processor):
        """Starts a dormant task, on a processor that stays its own."""
        task.processor, task.priority, task.base = processor, task.initial_priority, task.initial_priority
        task.context = Context(task.address, task.argument, task.stack)
        self.make_ready(task)

    def end(self, task):
        """Makes a task dormant, without its mutexes, and starts it again where a request is queued."""
        for it in self.mutexes.values():
            if it.owner is task:
                self.give(it)
        if task.state == "ready":
            self.leave_ready(task)
        self.leave_wait(task)
        task.state, task.wakeup, request, task.request = "dormant", False, task.request, None
        if request is not None:
            self.counts[f"restart: by {'mact_tsk' if request else 'act_tsk'}"] += 1
            self.start(task, request or task.processor)

    def block(self, task, waits_in, wanted, ticks):
        """A task begins to wait, for -1 without an end. n ticks have passed in the one that is n + 1 later."""
        self.leave_ready(task)
        task.state, task.waits_in, task.wanted = "waiting", waits_in, wanted
        task.due = None if ticks == -1 else self.now + ticks + 1
        waits_in.enter(task)
        self.counts[f"wait: {waits_in.name}, begins" + ("" if waits_in[-1] is task else " before others")] += 1
        return SILENT

    def leave_wait(self, task):
        if task.waits_in is not None:
            task.waits_in.remove(task)
        task.waits_in = task.wanted = task.due = None

    def release(self, task, *answer):
        """Ends a wait. A task that was suspended meanwhile stays suspended."""
        self.counts[f"wait: {task.waits_in.name}, ends by {ANSWERS[answer[0]]}, was {task.state}"] += 1
        self.leave_wait(task)
        write(task.context, answer)
        if task.state == "waiting":
            self.make_ready(task)
        else:
            task.state = "suspended"

    def move(self, task, priority):
        """Gives a priority: after its equals where it is ready or waits by priority, also if it has that already."""
        task.priority = priority
        if task.state == "ready":
            self.leave_ready(task)
            self.make_ready(task)
        elif task.waits_in is not None and task.waits_in.by_priority:
            task.waits_in.remove(task)
            task.waits_in.enter(task)

    def give(self, mutex):
        """The first waiter has a mutex that is given back, if one waits."""
        mutex.owner = mutex.waiters[0] if mutex.waiters else None
        if mutex.owner:
            self.release(mutex.owner, E_OK)

    def lift(self):
        """Each task has the highest of its base, its ceilings, and the priorities of who waits for what it has."""
        mutexes = [it for it in self.mutexes.values() if it.owner]
        ceilings = [it for it in mutexes if it.protocol == CEILING]
        level = {task: min([task.base] + [it.ceiling for it in ceilings if it.owner is task])
                 for task in self.tasks.values()}
        while low := [(it.owner, task) for it in mutexes if it.protocol == INHERIT for task in it.waiters
                      if level[task] < level[it.owner]]:
            for owner, task in low:
                level[owner] = min(level[owner], level[task])
        for task, priority in level.items():
            if task.priority != priority:
                self.counts[f"mutex: {'lifts' if priority < task.priority else 'lowers'} a {task.state} task"] += 1
                self.move(task, priority)

    def dispatch(self):
        """Each processor that isn't held runs the first of its ready tasks. Where that is another, its link ends."""
        self.lift()
        for processor in self.processors.values():
            first = processor.ready[0] if processor.ready else None
            old = processor.running
            if not processor.is_held() and first is not old:
                processor.running = first
                self.memory.links.pop(processor.number, None)
                if old and old in processor.ready:
                    self.counts["dispatch: preempted" + (" before a slot" if old.context.slot else "")] += 1

    # Events

    def event(self, kind, number=0):
        """One event of a journal, by its letter: what it is, and the address of the instruction that it executed."""
        if self.off:
            report = "Off", None
        elif kind == "S":
            report = self.step(self.processors[number]) if number in self.processors else ("NoSuch", None)
        elif kind == "T":
            report = self.tick()
        else:
            report = ("Raised" if number in self.lines else "NoSuch"), None
            self.pending |= {number} & self.lines.keys()
        self.counts[f"event: {report[0]}"] += 1
        return report

    def step(self, processor):
        if processor.stopped:
            return "Stopped", None
        if lines := self.acceptable(processor):
            return self.accept(processor, min(lines))
        context = processor.context()
        if context is None:
            return "Idle", None
        address, before = context.pc, (context.pc, context.npc, context.slot)
        try:
            called = execute(context, self.memory, processor.number)
        except Fault as fault:
            processor.last_fault = fault.code, address
            self.fault(processor, fault.code)
            return "Faulted", address
        if called:
            self.call(processor, context, before)
        return "Called" if called else "Ran", address

    def acceptable(self, processor):
        """The pending lines that a processor would accept in its next step, unless it is stopped."""
        is_free = processor.line is None and not processor.locked
        return [line for line in self.pending if is_free and self.handled_by(line) == processor.number]

    def handled_by(self, line):
        return self.timers[line].setup.processor if line in self.timers else self.lines[line][0]

    def entry(self, line):
        """The context in which the handler of a line begins."""
        if line in self.timers:
            setup = self.timers[line].setup
            return Context(setup.address, setup.argument)
        return Context(self.lines[line][1], line)

    def accept(self, processor, line):
        """An interrupt: the handler begins in the place of an instruction."""
        state = "held" if processor.is_held() else "busy" if processor.running else "idle"
        self.counts[f"interrupt: {state} processor"] += 1
        self.pending.remove(line)
        self.memory.links.pop(processor.number, None)
        processor.line, processor.handler = line, self.entry(line)
        return "Accepted", None

    def call(self, processor, context, before):
        """A SYSCALL, whose context has gone on: the link ends, the call is served, and the tasks to run are chosen.

        One that is to come again leaves the context as it was before.
        """
        self.memory.links.pop(processor.number, None)
        answer = Request(self, processor, context).serve()
        if answer is AGAIN:
            context.pc, context.npc, context.slot = before
            who = "a handler, " if processor.line is not None else ""
            self.counts[f"spin: {who}{'in a slot' if context.slot else 'again'}"] += 1
        else:
            write(context, answer)
        self.dispatch()

    def fault(self, processor, code):
        """An exception stops a handler's processor for good, and ends a task without its queued requests."""
        who = "task" if processor.line is None else "handler"
        self.counts[f"exception: {code} in a {who}{' with a lock' if processor.lock else ''}"] += 1
        processor.unlock()
        if processor.line is not None:
            processor.stopped = True
            return
        processor.running.request = None
        processor.disabled = False
        self.end(processor.running)
        self.dispatch()

    def tick(self):
        """Ends the waits whose time has come, by ascending ID, before any other task is chosen to run; then time
        handlers are due."""
        self.now += 1
        for task in self.tasks.values():
            if task.due is not None and task.due <= self.now:
                self.release(task, E_OK if task.waits_in is self.delayed else E_TMOUT)
        for line, timer in self.timers.items():
            if timer.due == self.now:
                kind = handler_name(line).split()[0]
                self.counts[f"due: {kind} handler" + (", pending already" if line in self.pending else "")] += 1
                self.pending.add(line)
                timer.passed()
        self.dispatch()
        return "Ticked", None

    def report(self, events):
        """What `board run` prints, as bytes."""
        lines = [f"events {events}", f"tick {self.now}", f"off {int(self.off)}"]
        for it in self.processors.values():
            task = f"task {it.running.id}" if it.running else "idle"
            what = "stopped" if it.stopped else task if it.line is None else f"handler {it.line}"
            lines.append(f"cpu {it.number} {what}" + (f" pc {it.context().pc:08x}" if it.context() else ""))
        lines += [f"task {it.id} {it.state} pri {it.priority} cpu {it.processor}" for it in self.tasks.values()]
        return "\n".join(lines + [f"console {len(self.console)}", ""]).encode() + bytes(self.console) + b"\n"


def handler_name(line):
    """What the handler of a line is called: those of time by their IDs."""
    return f"handler {line}" if line < 32 else f"{'alarm' if line % 2 else 'cyclic'} handler {(line - 30) // 2}"


def stacks(setup):
    """The first $sp of each task: stacks that the configuration leaves open lie from the RAM's end down."""
    end = RAM_START + setup.ram
    for it in setup.tasks:
        yield end if it.stack is None else it.stack + it.size & ~7
        if it.stack is None:
            end -= it.size + 15 & ~15


def distance(pool):
    """How far the blocks of a pool lie from each other."""
    return pool.size + 3 & ~3


def areas(setup):
    """The address of each pool's first block: those that the configuration leaves open lie below the stacks."""
    end = RAM_START + setup.ram - sum(it.size + 15 & ~15 for it in setup.tasks if it.stack is None)
    for it in setup.pools.values():
        if it.area is None:
            end -= it.count * distance(it)
        yield end if it.area is None else it.area


def write(context, answer):
    """$v0 takes a call's answer, $v1 its second result; there may be neither."""
    for register, value in zip((2, 3), answer):
        context.set(register, value)


class Request:
    """A service call under way: from where it comes, its arguments, its timeout, and the object that it names.

    The methods below `wait` are the effects of the calls. They give what is to be written, DONE in the place of None.
    """

    def __init__(self, board, processor, context):
        self.board, self.processor = board, processor
        self.caller = processor.running if processor.line is None else None
        number = context.registers[2]
        self.arguments = context.registers[4:8]
        self.call = CALLS.get(number) if number < PROFILE or board.standard else None
        self.object = self.timeout = None

    def serve(self):
        """The first reason to refuse it, else what its effect gives."""
        refusal, of = self.refusal(), ""
        if refusal is None and isinstance(self.object, Task):
            of = f", of a task {self.whereabouts()}"
        answer = (refusal,) if refusal is not None else self.call.effect(self)
        answer = DONE if answer is None else answer
        word = "again" if answer is AGAIN else ANSWERS.get(answer[0], "a count") if answer else "no answer"
        self.board.counts[f"call: {self.call.name if self.call else 'unknown'}, {word}{of}"] += 1
        return answer

    def refusal(self):
        """Why the call is refused, if it is. The order of the reasons is an own choice."""
        call = self.call
        if call is None:
            return E_RSFN
        if not self.may_come(call.place):
            return E_CTX
        if call.names:
            key = self.caller.id if call.names == "T0" and self.arguments[0] == 0 else self.arguments[0]
            if not 1 <= key <= 255:
                return E_ID
            objects = {"S": self.board.semaphores, "F": self.board.flags, "Q": self.board.queues,
                       "L": self.board.spin_locks, "M": self.board.mutexes, "P": self.board.pools,
                       "B": self.board.mailboxes, "C": self.board.cyclics, "A": self.board.alarms}
            self.object = objects.get(call.names, self.board.tasks).get(key)
        # (a call's timeout is -1, forever, or 0, a poll, or the argument that is named by A and its number)
        self.timeout = signed(self.arguments[int(call.timeout[1])]) if isinstance(call.timeout, str) else call.timeout
        if any(fails(self) for fails in call.limits):
            return E_PAR
        if call.names and self.object is None:
            return E_NOEXS
        return next((error for error, fails in call.refusals if fails(self)), None)

    def may_come(self, place):
        """Whether a call may come from here."""
        if place == ANYWHERE:
            return True
        if self.caller is None:
            return place == LOCKED_HANDLER or place == HANDLER and not self.processor.locked
        if place in (HANDLER, LOCKED_HANDLER):
            return False
        if self.processor.locked:
            return place == LOCKED_TASK
        names_caller = self.arguments[0] in (0, self.caller.id)
        return not (self.processor.disabled and (place == WAITING or place == ON_TASK and names_caller))

    def runs_elsewhere(self):
        """The other processor that the named task runs on, if it does."""
        its = self.board.processors[self.object.processor]
        return its if its is not self.processor and its.running is self.object else None

    def is_held_elsewhere(self):
        return self.runs_elsewhere() is not None and self.runs_elsewhere().is_held()

    def whereabouts(self):
        what = "calling" if self.object is self.caller else "running" if self.runs_elsewhere() else self.object.state
        return what + (" with a request" if self.object.request is not None else "")

    def wait(self, waits_in, wanted=None):
        """The caller waits, or is told at once that it would have to."""
        return (E_TMOUT,) if self.timeout == 0 else self.board.block(self.caller, waits_in, wanted, self.timeout)

    def activate(self, processor=0):
        """Processor 0 is the one that the task is assigned to when it starts."""
        if self.object.state == "dormant":
            self.board.start(self.object, processor or self.object.processor)
        else:
            self.object.request = processor

    def activate_there(self):
        self.activate(self.arguments[1])

    def can_act(self):
        count, self.object.request = int(self.object.request is not None), None
        return (count,)

    def can_wup(self):
        count, self.object.wakeup = int(self.object.wakeup), False
        return (count,)

    def ext_tsk(self):
        self.processor.unlock()
        self.processor.disabled = False
        self.board.end(self.caller)
        return SILENT

    def asked_priority(self):
        return self.arguments[1] or self.object.initial_priority

    def chg_pri(self):
        self.object.base = self.asked_priority()
        self.board.move(self.object, self.object.base)

    def is_above_a_ceiling(self):
        """Whether the asked priority is higher than the ceiling of what the task has or waits for."""
        return any(it.is_above(self.asked_priority()) for it in self.board.mutexes.values()
                   if it.owner is self.object or self.object in it.waiters)

    def mig_tsk(self):
        """Own choice in part: the task may be in any state but dormant, and keeps it."""
        if self.object.state == "ready":
            self.board.leave_ready(self.object)
        self.object.processor = self.arguments[1]
        if self.object.state == "ready":
            self.board.make_ready(self.object)

    def rot_rdq(self):
        """Puts the first ready task of a priority after its equals, on the caller's or the handler's processor."""
        priority = self.arguments[0] or self.caller.base
        for task in [task for task in self.processor.ready if task.priority == priority][:1]:
            self.board.move(task, priority)

    def mark(self, name, value):
        setattr(self.processor, name, value)

    def slp_tsk(self):
        if not self.caller.wakeup:
            return self.wait(self.board.sleepers)
        self.caller.wakeup = False

    def wup_tsk(self):
        if self.object.waits_in is self.board.sleepers:
            self.board.release(self.object, E_OK)
        else:
            self.object.wakeup = True

    def sus_tsk(self):
        if self.object.state == "ready":
            self.board.leave_ready(self.object)
            self.object.state = "suspended"
        else:
            self.object.state = "waiting-suspended"

    def rsm_tsk(self):
        if self.object.state == "suspended":
            self.board.make_ready(self.object)
        else:
            self.object.state = "waiting"

    def dly_tsk(self):
        return self.board.block(self.caller, self.board.delayed, None, self.arguments[0])

    def sig_sem(self):
        if self.object.waiters:
            self.board.release(self.object.waiters[0], E_OK)
        else:
            self.object.count += 1

    def wai_sem(self):
        if self.object.count == 0:
            return self.wait(self.object.waiters)
        self.object.count -= 1

    def set_flg(self):
        """One pass through the waiters. Where the flag clears itself, the first that is satisfied ends it."""
        self.object.pattern |= self.arguments[1]
        for task in list(self.object.waiters):
            if satisfied(self.object.pattern, *task.wanted):
                self.board.release(task, E_OK, self.object.pattern)
                if self.object.clears:
                    self.object.pattern = 0
                    break

    def clr_flg(self):
        self.object.pattern &= self.arguments[1]

    def wai_flg(self):
        wanted, pattern = self.arguments[1:3], self.object.pattern
        if not satisfied(pattern, *wanted):
            return self.wait(self.object.waiters, wanted)
        self.object.pattern = 0 if self.object.clears else pattern
        return E_OK, pattern

    def snd_dtq(self):
        """To the first receiver, else stored, else the sender waits with it."""
        queue, datum = self.object, self.arguments[1]
        if queue.receivers:
            self.board.release(queue.receivers[0], E_OK, datum)
        elif len(queue.data) < queue.capacity:
            queue.data.append(datum)
        else:
            return self.wait(queue.senders, datum)

    def fsnd_dtq(self):
        """A full queue gives its oldest datum up. Senders that wait stay after the new one."""
        if len(self.object.data) == self.object.capacity:
            self.board.counts["fsnd_dtq: drops" + (" before senders" if self.object.senders else "")] += 1
            self.object.data.popleft()
        return self.snd_dtq()

    def rcv_dtq(self):
        """The oldest datum, and the first sender's takes its place; where none is stored, the first sender's."""
        queue = self.object
        if queue.senders:
            queue.data.append(queue.senders[0].wanted)
            self.board.release(queue.senders[0], E_OK)
        return (E_OK, queue.data.popleft()) if queue.data else self.wait(queue.receivers)

    def loc_spn(self):
        """The processor takes a free lock; else the same SYSCALL comes again."""
        return AGAIN if self.object.holder else self.processor.take(self.object)

    def loc_mtx(self):
        if self.object.owner:
            return self.wait(self.object.waiters)
        self.object.owner = self.caller

    def ref_mtx(self):
        owner = self.object.owner
        return E_OK, [owner.id if owner else 0, first(self.object.waiters)][self.arguments[1]]

    def get_mpf(self):
        """The block with the lowest address that is there."""
        there = self.object.there()
        if not there:
            return self.wait(self.object.waiters)
        self.object.out.add(min(there))
        return E_OK, min(there)

    def rel_mpf(self):
        """The first waiter has the block, else it is there again."""
        pool, address = self.object, self.arguments[1]
        if pool.waiters:
            self.board.release(pool.waiters[0], E_OK, address)
        else:
            pool.out.remove(address)

    def snd_mbx(self):
        """To the first waiter, else kept: as the last, or before those of lower priority."""
        mailbox, message = self.object, (self.arguments[2], self.arguments[1])
        if mailbox.waiters:
            self.board.release(mailbox.waiters[0], E_OK, self.arguments[1])
            return
        lower = [at for at, it in enumerate(mailbox.messages) if mailbox.by_message and it[0] > message[0]]
        mailbox.messages.insert(lower[0] if lower else len(mailbox.messages), message)
        self.board.counts["snd_mbx: kept" + (" before others" if lower else "")] += 1

    def rcv_mbx(self):
        messages = self.object.messages
        return (E_OK, messages.pop(0)[1]) if messages else self.wait(self.object.waiters)

    def put_chr(self):
        self.board.console.append(self.arguments[0] & 255)

    def ext_ker(self):
        self.board.off = True
        return SILENT

    def iget_tid(self):
        return E_OK, self.processor.running.id if self.processor.running else 0

    def set_tim(self):
        self.board.clock = self.arguments[0] - self.board.now

    def mget_tid(self):
        running = self.board.processors[self.arguments[0]].running
        return E_OK, running.id if running else 0

    def mrot_rdq(self):
        priority, ready = self.arguments[0] or self.caller.base, self.board.processors[self.arguments[1]].ready
        for task in [task for task in ready if task.priority == priority][:1]:
            self.board.move(task, priority)

    def awaited_object(self, task):
        """The ID of the object that a task waits for, 0 where it waits for none."""
        board = self.board
        for objects in (board.semaphores, board.flags, board.queues, board.mutexes, board.pools, board.mailboxes):
            for key, it in objects.items():
                if any(task.waits_in is value for value in vars(it).values() if isinstance(value, TaskList)):
                    return key
        return 0

    def ref_tsk(self):
        """The words of T_RTSK: states and waits by the numbers of the specification."""
        task, waits_in = self.object, self.object.waits_in
        states = {"ready": 2, "waiting": 4, "suspended": 8, "waiting-suspended": 12, "dormant": 16}
        waits = {"sleep": 1, "delay": 2, "semaphore": 4, "flag": 8, "sender": 16, "receiver": 32,
                 "message": 64, "mutex": 128, "block": 0x2000}
        runs = self.board.processors[task.processor].running is task
        left = FOREVER if task.due is None else task.due - self.board.now - 1
        return E_OK, [1 if runs else states[task.state], task.priority, task.base,
                      0 if waits_in is None else waits[waits_in.name], self.awaited_object(task),
                      0 if waits_in is None else left, int(task.request is not None), int(task.wakeup),
                      int(task.state in ("suspended", "waiting-suspended"))][self.arguments[1]]

    def ref_sem(self):
        return E_OK, [first(self.object.waiters), self.object.count][self.arguments[1]]

    def ref_flg(self):
        return E_OK, [first(self.object.waiters), self.object.pattern][self.arguments[1]]

    def ref_dtq(self):
        queue = self.object
        return E_OK, [first(queue.senders), first(queue.receivers), len(queue.data)][self.arguments[1]]

    def ref_mpf(self):
        return E_OK, [first(self.object.waiters), len(self.object.there())][self.arguments[1]]

    def ref_mbx(self):
        messages = self.object.messages
        return E_OK, [first(self.object.waiters), messages[0][1] if messages else 0][self.arguments[1]]

    def sta_cyc(self):
        self.object.start(self.board.now)

    def sta_alm(self):
        self.object.start(self.board.now, self.arguments[1])

    def stop(self):
        self.object.due = None

    def ref_timer(self):
        due = self.object.due
        return E_OK, ([0, 0] if due is None else [1, due - self.board.now - 1])[self.arguments[1]]

    def ret_int(self):
        """The processor is neither CPU-locked after it nor holds a spin lock."""
        self.board.counts["ret_int: " + ("with a lock" if self.processor.lock else
                                         "CPU-locked" if self.processor.locked else "unlocked")] += 1
        self.processor.unlock()
        self.processor.line = self.processor.handler = None
        return SILENT


def first(waiters):
    """The ID of the first task of a list, 0 (TSK_NONE) where there is none."""
    return waiters[0].id if waiters else 0


def satisfied(pattern, bits, mode):
    """Whether a pattern has all bits (mode 0, TWF_ANDW) or any (mode 1, TWF_ORW)."""
    return pattern & bits == bits if mode == 0 else pattern & bits != 0


# From where a call may come: a task that isn't CPU-locked, any task, as the first but not while dispatching is
# disabled, as the first but then not for itself, a handler that isn't CPU-locked, any handler, any task or handler.
# Which are which is an own choice.
TASK, LOCKED_TASK, WAITING, ON_TASK = "task", "locked task", "waiting", "on task"
HANDLER, LOCKED_HANDLER, ANYWHERE = "handler", "locked handler", "anywhere"
# The first number of the calls that are there in the profile alone.
PROFILE = 64
FOREVER, POLL = -1, 0
# Which arguments are E_PAR.
BAD_PRIORITY = lambda it: it.arguments[1] > 16
BAD_PROCESSOR = lambda it: it.arguments[1] not in it.board.processors
BAD_ROTATION = lambda it: it.arguments[0] > 16 or it.arguments[0] == 0 and it.caller is None
BAD_FIRST = lambda it: it.arguments[0] not in it.board.processors
BAD_TURN = lambda it: it.arguments[0] > 16
BAD_TIMEOUT = lambda it: it.timeout < -1
BAD_TIME = lambda it: it.arguments[0] > 0x7FFFFFFF
BAD_ALARM = lambda it: it.arguments[1] > 0x7FFFFFFF
BAD_WISH = lambda it: it.arguments[1] == 0 or it.arguments[2] > 1
NOT_OUT = lambda it: it.object and it.arguments[1] not in it.object.out
BAD_MESSAGE = lambda it: it.object and it.object.by_message and not 1 <= it.arguments[2] <= it.object.priorities
OF_TWO, OF_THREE, OF_NINE = (lambda it, most=most: it.arguments[1] > most for most in (1, 2, 8))
# Why an object refuses, in the order of a row.
ITSELF = E_ILUSE, lambda it: it.object is it.caller
TAKEN = E_ILUSE, lambda it: not it.object.many and it.object.waiters
HAS_IT = E_ILUSE, lambda it: it.object.owner is it.caller
HAS_IT_NOT = E_ILUSE, lambda it: it.object.owner is not it.caller
ABOVE = E_ILUSE, lambda it: it.object.is_above(it.caller.base)
ABOVE_A_CEILING = E_ILUSE, Request.is_above_a_ceiling
STORES_NONE = E_ILUSE, lambda it: it.object.capacity == 0
DORMANT = E_OBJ, lambda it: it.object.state == "dormant"
HELD = E_OBJ, Request.is_held_elsewhere
THERE = E_OBJ, lambda it: it.object.processor == it.arguments[1]
NOT_WAITING = E_OBJ, lambda it: it.object.waits_in is None
NOT_SUSPENDED = E_OBJ, lambda it: it.object.state not in ("suspended", "waiting-suspended")
SUSPENDED = E_QOVR, lambda it: it.object.state in ("suspended", "waiting-suspended")
REQUESTED = E_QOVR, lambda it: it.object.request is not None
WOKEN = E_QOVR, lambda it: it.object.wakeup
AT_MAXIMUM = E_QOVR, lambda it: not it.object.waiters and it.object.count == it.object.maximum
HELD_BY_ANY = E_OBJ, lambda it: it.object.holder
NOT_HELD_HERE = E_ILUSE, lambda it: it.object.holder is not it.processor
HOLDS_A_LOCK = E_CTX, lambda it: it.processor.lock
MAILBOX_FULL = E_QOVR, lambda it: not it.object.waiters and len(it.object.messages) == MOST_MESSAGES
CONSOLE_FULL = E_QOVR, lambda it: len(it.board.console) == CONSOLE_BYTES

# `names`: what $a0 is the ID of: a task, the caller too by 0 (T0), a semaphore, a flag, a queue, a spin lock (L), a
# mutex (M), a memory pool (P), a mailbox (B), a cyclic handler (C), an alarm handler (A), or of nothing.
Call = collections.namedtuple("Call", "name place names timeout limits refusals effect")
CALLS = {
    1: Call("act_tsk", TASK, "T0", None, [], [REQUESTED], Request.activate),
    2: Call("can_act", TASK, "T0", None, [], [], Request.can_act),
    3: Call("ext_tsk", LOCKED_TASK, "", None, [], [], Request.ext_tsk),
    4: Call("ter_tsk", TASK, "T", None, [], [ITSELF, DORMANT, HELD], lambda it: it.board.end(it.object)),
    5: Call("chg_pri", TASK, "T0", None, [BAD_PRIORITY], [ABOVE_A_CEILING, DORMANT], Request.chg_pri),
    6: Call("get_pri", TASK, "T0", None, [], [DORMANT], lambda it: (E_OK, it.object.priority)),
    7: Call("mact_tsk", TASK, "T0", None, [BAD_PROCESSOR], [REQUESTED], Request.activate_there),
    8: Call("mig_tsk", ON_TASK, "T0", None, [BAD_PROCESSOR], [DORMANT, HELD, THERE], Request.mig_tsk),
    9: Call("get_pid", TASK, "", None, [], [], lambda it: (E_OK, it.processor.number)),
    10: Call("rot_rdq", TASK, "", None, [BAD_ROTATION], [], Request.rot_rdq),
    11: Call("get_tid", TASK, "", None, [], [], lambda it: (E_OK, it.caller.id)),
    12: Call("dis_dsp", TASK, "", None, [], [], lambda it: it.mark("disabled", True)),
    13: Call("ena_dsp", TASK, "", None, [], [], lambda it: it.mark("disabled", False)),
    14: Call("loc_cpu", LOCKED_TASK, "", None, [], [], lambda it: it.mark("locked", True)),
    15: Call("unl_cpu", LOCKED_TASK, "", None, [], [HOLDS_A_LOCK], lambda it: it.mark("locked", False)),
    16: Call("slp_tsk", WAITING, "", FOREVER, [], [], Request.slp_tsk),
    17: Call("tslp_tsk", WAITING, "", "A0", [BAD_TIMEOUT], [], Request.slp_tsk),
    18: Call("wup_tsk", TASK, "T0", None, [], [DORMANT, WOKEN], Request.wup_tsk),
    19: Call("can_wup", TASK, "T0", None, [], [DORMANT], Request.can_wup),
    20: Call("rel_wai", TASK, "T", None, [], [NOT_WAITING], lambda it: it.board.release(it.object, E_RLWAI)),
    21: Call("sus_tsk", ON_TASK, "T0", None, [], [DORMANT, HELD, SUSPENDED], Request.sus_tsk),
    22: Call("rsm_tsk", TASK, "T", None, [], [NOT_SUSPENDED], Request.rsm_tsk),
    23: Call("dly_tsk", WAITING, "", None, [BAD_TIME], [], Request.dly_tsk),
    24: Call("sig_sem", TASK, "S", None, [], [AT_MAXIMUM], Request.sig_sem),
    25: Call("wai_sem", WAITING, "S", FOREVER, [], [], Request.wai_sem),
    26: Call("pol_sem", TASK, "S", POLL, [], [], Request.wai_sem),
    27: Call("twai_sem", WAITING, "S", "A1", [BAD_TIMEOUT], [], Request.wai_sem),
    28: Call("set_flg", TASK, "F", None, [], [], Request.set_flg),
    29: Call("clr_flg", TASK, "F", None, [], [], Request.clr_flg),
    30: Call("wai_flg", WAITING, "F", FOREVER, [BAD_WISH], [TAKEN], Request.wai_flg),
    31: Call("pol_flg", TASK, "F", POLL, [BAD_WISH], [TAKEN], Request.wai_flg),
    32: Call("twai_flg", WAITING, "F", "A3", [BAD_WISH, BAD_TIMEOUT], [TAKEN], Request.wai_flg),
    33: Call("snd_dtq", WAITING, "Q", FOREVER, [], [], Request.snd_dtq),
    34: Call("psnd_dtq", TASK, "Q", POLL, [], [], Request.snd_dtq),
    35: Call("tsnd_dtq", WAITING, "Q", "A2", [BAD_TIMEOUT], [], Request.snd_dtq),
    36: Call("fsnd_dtq", TASK, "Q", None, [], [STORES_NONE], Request.fsnd_dtq),
    37: Call("rcv_dtq", WAITING, "Q", FOREVER, [], [], Request.rcv_dtq),
    38: Call("prcv_dtq", TASK, "Q", POLL, [], [], Request.rcv_dtq),
    39: Call("trcv_dtq", WAITING, "Q", "A1", [BAD_TIMEOUT], [], Request.rcv_dtq),
    40: Call("put_chr", TASK, "", None, [], [CONSOLE_FULL], Request.put_chr),
    41: Call("ext_ker", LOCKED_TASK, "", None, [], [], Request.ext_ker),
    48: Call("iact_tsk", HANDLER, "T", None, [], [REQUESTED], Request.activate),
    49: Call("iwup_tsk", HANDLER, "T", None, [], [DORMANT, WOKEN], Request.wup_tsk),
    50: Call("irel_wai", HANDLER, "T", None, [], [NOT_WAITING], lambda it: it.board.release(it.object, E_RLWAI)),
    51: Call("isig_sem", HANDLER, "S", None, [], [AT_MAXIMUM], Request.sig_sem),
    52: Call("iset_flg", HANDLER, "F", None, [], [], Request.set_flg),
    53: Call("ipsnd_dtq", HANDLER, "Q", POLL, [], [], Request.snd_dtq),
    54: Call("ifsnd_dtq", HANDLER, "Q", None, [], [STORES_NONE], Request.fsnd_dtq),
    55: Call("irot_rdq", HANDLER, "", None, [BAD_ROTATION], [], Request.rot_rdq),
    56: Call("iget_tid", HANDLER, "", None, [], [], Request.iget_tid),
    57: Call("imact_tsk", HANDLER, "T", None, [BAD_PROCESSOR], [REQUESTED], Request.activate_there),
    58: Call("ret_int", LOCKED_HANDLER, "", None, [], [], Request.ret_int),
    60: Call("loc_spn", TASK, "L", None, [], [], Request.loc_spn),
    61: Call("try_spn", TASK, "L", None, [], [HELD_BY_ANY], Request.loc_spn),
    62: Call("unl_spn", LOCKED_TASK, "L", None, [], [NOT_HELD_HERE], lambda it: it.processor.unlock()),
    64: Call("get_tim", TASK, "", None, [], [], lambda it: (E_OK, it.board.clock + it.board.now)),
    65: Call("set_tim", TASK, "", None, [], [], Request.set_tim),
    66: Call("sns_ctx", ANYWHERE, "", None, [], [], lambda it: (int(it.caller is None),)),
    67: Call("sns_loc", ANYWHERE, "", None, [], [], lambda it: (int(it.processor.locked),)),
    68: Call("sns_dsp", ANYWHERE, "", None, [], [], lambda it: (int(it.processor.disabled),)),
    69: Call("sns_dpn", ANYWHERE, "", None, [], [], lambda it: (int(it.processor.is_held()),)),
    70: Call("frsm_tsk", TASK, "T", None, [], [NOT_SUSPENDED], Request.rsm_tsk),
    71: Call("mget_tid", TASK, "", None, [BAD_FIRST], [], Request.mget_tid),
    72: Call("mrot_rdq", TASK, "", None, [BAD_TURN, BAD_PROCESSOR], [], Request.mrot_rdq),
    73: Call("ref_tsk", TASK, "T0", None, [OF_NINE], [], Request.ref_tsk),
    74: Call("ref_sem", TASK, "S", None, [OF_TWO], [], Request.ref_sem),
    75: Call("ref_flg", TASK, "F", None, [OF_TWO], [], Request.ref_flg),
    76: Call("ref_dtq", TASK, "Q", None, [OF_THREE], [], Request.ref_dtq),
    77: Call("loc_mtx", WAITING, "M", FOREVER, [], [HAS_IT, ABOVE], Request.loc_mtx),
    78: Call("ploc_mtx", TASK, "M", POLL, [], [HAS_IT, ABOVE], Request.loc_mtx),
    79: Call("tloc_mtx", WAITING, "M", "A1", [BAD_TIMEOUT], [HAS_IT, ABOVE], Request.loc_mtx),
    80: Call("unl_mtx", TASK, "M", None, [], [HAS_IT_NOT], lambda it: it.board.give(it.object)),
    81: Call("ref_mtx", TASK, "M", None, [OF_TWO], [], Request.ref_mtx),
    82: Call("get_mpf", WAITING, "P", FOREVER, [], [], Request.get_mpf),
    83: Call("pget_mpf", TASK, "P", POLL, [], [], Request.get_mpf),
    84: Call("tget_mpf", WAITING, "P", "A1", [BAD_TIMEOUT], [], Request.get_mpf),
    85: Call("rel_mpf", TASK, "P", None, [NOT_OUT], [], Request.rel_mpf),
    86: Call("snd_mbx", TASK, "B", None, [BAD_MESSAGE], [MAILBOX_FULL], Request.snd_mbx),
    87: Call("isnd_mbx", HANDLER, "B", None, [BAD_MESSAGE], [MAILBOX_FULL], Request.snd_mbx),
    88: Call("rcv_mbx", WAITING, "B", FOREVER, [], [], Request.rcv_mbx),
    89: Call("prcv_mbx", TASK, "B", POLL, [], [], Request.rcv_mbx),
    90: Call("trcv_mbx", WAITING, "B", "A1", [BAD_TIMEOUT], [], Request.rcv_mbx),
    91: Call("ref_mpf", TASK, "P", None, [OF_TWO], [], Request.ref_mpf),
    92: Call("ref_mbx", TASK, "B", None, [OF_TWO], [], Request.ref_mbx),
    93: Call("sta_cyc", TASK, "C", None, [], [], Request.sta_cyc),
    94: Call("stp_cyc", TASK, "C", None, [], [], Request.stop),
    95: Call("sta_alm", TASK, "A", None, [BAD_ALARM], [], Request.sta_alm),
    96: Call("ista_alm", HANDLER, "A", None, [BAD_ALARM], [], Request.sta_alm),
    97: Call("stp_alm", TASK, "A", None, [], [], Request.stop),
    98: Call("istp_alm", HANDLER, "A", None, [], [], Request.stop),
    99: Call("ref_cyc", TASK, "C", None, [OF_TWO], [], Request.ref_timer),
    100: Call("ref_alm", TASK, "A", None, [OF_TWO], [], Request.ref_timer),
    101: Call("iloc_cpu", LOCKED_HANDLER, "", None, [], [], lambda it: it.mark("locked", True)),
    102: Call("iunl_cpu", LOCKED_HANDLER, "", None, [], [HOLDS_A_LOCK], lambda it: it.mark("locked", False)),
    103: Call("iloc_spn", HANDLER, "L", None, [], [], Request.loc_spn),
    104: Call("itry_spn", HANDLER, "L", None, [], [HELD_BY_ANY], Request.loc_spn),
    105: Call("iunl_spn", LOCKED_HANDLER, "L", None, [], [NOT_HELD_HERE], lambda it: it.processor.unlock()),
    112: Call("iget_pid", HANDLER, "", None, [], [], lambda it: (E_OK, it.processor.number)),
}
