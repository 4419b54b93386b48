#!/usr/bin/env python3
"""Writes the journal that `board journal` is to write, by docs/dev/INSIDE.md, "How journals are drawn".

  tests/model/schedules.py CPUS EVENTS [--turn N] [--random SEED] [--switch P] [--weights W,..] [--pct D]
      [--tick-every N] [--raise LINE@EVENT,..] [--order big|little]

It shares no code with the program, and looks for no wrong options.
"""
import argparse

WORD = 2**32
DOUBLE = 2**64
MULTIPLIER = 6364136223846793005


def permuted(state):
    """The output of PCG's XSH RR: the state's high bits, shifted and rotated to 32."""
    shifted = ((state >> 18 ^ state) >> 27) % WORD
    turn = state >> 59
    return (shifted >> turn | shifted << (32 - turn)) % WORD


class Pcg32:
    """PCG XSH RR 64/32 (O'Neill, 2014)."""

    def __init__(self, state, increment):
        self.increment = increment
        self.state = state + increment
        self.step()

    @classmethod
    def of_seed(cls, seed):
        """That of a seed: its state and its increment are made of four words of another such generator."""
        words = []
        for _ in range(4):
            seed = (seed * MULTIPLIER + 11634580027462260723) % DOUBLE
            words.append(permuted(seed))
        return cls(words[0] | words[1] << 32, words[2] | words[3] << 32 | 1)

    def step(self):
        self.state = (self.state * MULTIPLIER + self.increment) % DOUBLE

    def word(self):
        word = permuted(self.state)
        self.step()
        return word

    def below(self, end):
        """A number from 0 to end - 1: the high half of a word times end, which a second word may raise by one."""
        product = self.word() * end
        high, low = product // WORD, product % WORD
        if low > WORD - end:
            high += (low + self.word() * end // WORD) // WORD
        return high


def check_generator():
    """The words that PCG's authors publish for the state 42 and the sequence 54."""
    numbers = Pcg32(42, 54 << 1 | 1)
    assert [numbers.word() for _ in range(6)] == [
        0xA15C02B7, 0x7B47F409, 0xBA1D3330, 0x83D2F293, 0xBFA4784B, 0xCBED606E,
    ]


def in_turns(cpus, each):
    step = 0
    while True:
        yield step // max(each, 1) % cpus + 1
        step += 1


def drawn(seed, switch, weights):
    numbers = Pcg32.of_seed(seed)

    def draw():
        left = numbers.below(sum(weights))
        for cpu, weight in enumerate(weights, 1):
            if left < weight:
                return cpu
            left -= weight
        raise AssertionError("the number is below the sum")

    cpu = draw()
    while True:
        if numbers.below(1000) < switch:
            cpu = draw()
        yield cpu


def lowered(cpus, events, seed, changes):
    numbers = Pcg32.of_seed(seed)
    places = [numbers.below(max(events, 1)) for _ in range(changes)]
    order = list(range(8))
    rest = numbers.below(479001600)
    for place in range(1, 8):
        rest, other = divmod(rest, place + 1)
        order[place], order[other] = order[other], order[place]
    priorities = {cpu: changes + order[cpu - 1] for cpu in range(1, cpus + 1)}
    step = 0
    while True:
        for number, place in enumerate(places):
            if place == step:
                priorities[max(priorities, key=priorities.get)] = number
        yield max(priorities, key=priorities.get)
        step += 1


def steppers(asked):
    """The processors of the steps, one after the other."""
    if asked.random is None:
        return in_turns(asked.cpus, asked.turn)
    if asked.pct is not None:
        return lowered(asked.cpus, asked.events, asked.random, asked.pct)
    weights = [int(weight) for weight in asked.weights.split(",")] if asked.weights else [1] * asked.cpus
    return drawn(asked.random, asked.switch, weights)


def events(asked):
    raised = {}
    for word in asked.raises.split(",") if asked.raises else []:
        line, event = word.split("@")
        raised[int(event)] = line
    steps = steppers(asked)
    for number in range(1, asked.events + 1):
        if number in raised:
            yield f"R {raised[number]}"
        elif asked.tick_every and number % asked.tick_every == 0:
            yield "T"
        else:
            yield f"S {next(steps)}"


def main():
    parser = argparse.ArgumentParser(allow_abbrev=False)
    parser.add_argument("cpus", type=int)
    parser.add_argument("events", type=int)
    parser.add_argument("--turn", type=int, default=1)
    parser.add_argument("--random", type=int)
    parser.add_argument("--switch", type=int, default=500)
    parser.add_argument("--weights")
    parser.add_argument("--pct", type=int)
    parser.add_argument("--tick-every", type=int, default=0)
    parser.add_argument("--raise", dest="raises")
    parser.add_argument("--order", default="big")
    asked = parser.parse_args()
    check_generator()
    print(f"board-journal 2 {asked.order}")
    last, count = None, 0
    for event in events(asked):
        if event != last and count:
            print(last, count)
            count = 0
        last, count = event, count + 1
    if count:
        print(last, count)


main()
