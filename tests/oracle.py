"""The run of a script as a list of states: the machine is looked at after each action in effect. It is slow, and searches nothing;
what the tools find in a run is compared with it."""

import functools
import itertools

from pp6600 import Console

PROCESSORS = 10
REGISTERS = ("P", "A", "Q", "PHASE")
WAIT = (0o70, 0o72, 0o74, 0o75, 0o76, 0o77)  # the codes that may wait; of blocks those with a phase that is 71 or 73
WAIT_IN_BLOCK = (0o71, 0o73)


def in_effect(words, lines):
    """Returns the actions in effect at the end of a script, and those ahead: STEP for each turn, and other lines as they are."""
    console, kept, undone = Console(words), [], []
    for line in lines:
        kind, *rest = (console.ask(line) or ["NOTE"])[0].split()
        if kind in ("BACK", "FORWARD"):
            source, target = (kept, undone) if kind == "BACK" else (undone, kept)
            target += [source.pop() for _ in range(int(rest[0], 8))]
        elif kind in ("OK", "TURNS"):
            kept += [line] if kind == "OK" else ["STEP"] * int(rest[0], 8)
            undone.clear()
    console.end()
    return kept, undone[::-1]


class State:
    """The numbers of the machine by their places, as M 0 20, P 3 and H 5; S 5 is the state of channel 05."""

    def __init__(self, answers, looks):
        self.numbers, rows = {}, iter(answers)
        for _ in range(PROCESSORS):
            _, number, *words = next(rows).split()
            self.numbers |= {f"{name} {int(number, 8):o}": digits for name, digits in zip(words[:8:2], words[1:8:2])}
            self.slot = int(words[-1], 8)
        for _ in range(13):
            _, number, letter, digits = next(rows).split()
            self.numbers |= {f"S {int(number, 8):o}": letter, f"H {int(number, 8):o}": digits}
        for (number, first, last) in looks:
            words = [word for _ in range(first, last + 1, 8) for word in next(rows).split()[1:]]
            self.numbers |= {f"M {number:o} {first + at:o}": word for at, word in enumerate(words)}

    def registers(self, number):
        return [self.numbers[f"{name} {number:o}"] for name in REGISTERS]


class Timeline:
    """The states of a run: state 0 is before its first action."""

    def __init__(self, words, lines, looks=()):
        """Looks at the cells from `first` to `last` of processors, too."""
        self.words, self.looks = words, looks
        self.actions, _ = in_effect(words, lines)
        self.look()

    def look(self):
        """Looks at the machine before the first action and after each."""
        asked = [*(f"DUMP PP {number:o}" for number in range(PROCESSORS)), "DUMP H"]
        asked += [f"DUMP M {number:o} {first:o} {last:o}" for number, first, last in self.looks]
        lines = [*asked, *(line for action in self.actions for line in (action, *asked)), "DUMP CR"]
        console = Console(self.words)
        answers = [line for line in itertools.chain.from_iterable(console.ask_each(lines))
                   if line[:2] not in ("OK", "TU", "HI", "CR")]
        console.end()
        size = len(answers) // (len(self.actions) + 1)
        self.states = [State(answers[at:at + size], self.looks) for at in range(0, len(answers), size)]

    def is_turn(self, at):
        """Whether the action after a state is a turn."""
        return self.actions[at] == "STEP"

    def turns(self, at):
        """Returns how many turns there are before a state."""
        return self.actions[:at].count("STEP")

    def differ(self, at, places):
        """Whether the action after a state changes a number of these places."""
        return any(self.states[at].numbers[place] != self.states[at + 1].numbers[place] for place in places)

    def is_wait(self, at, word):
        """Whether the turn after a state is a wait: nothing changes of the processor, whose instruction is this word or that of its
        block."""
        before, number = self.states[at], self.states[at].slot
        phase = int(before.numbers[f"PHASE {number:o}"], 8) >> 6
        may_wait = phase in WAIT_IN_BLOCK if phase else word >> 6 in WAIT
        return may_wait and before.registers(number) == self.states[at + 1].registers(number)

    @functools.cached_property
    def waits(self):
        """For each state, whether the last turn of each processor was a wait. The word at P must be among the cells looked at."""
        found = [[False] * PROCESSORS]
        for at, state in enumerate(self.states[:-1]):
            now = list(found[-1])
            if self.is_turn(at):
                number = state.slot
                p = int(state.numbers[f"P {number:o}"], 8)
                now[number] = self.is_wait(at, int(state.numbers.get(f"M {number:o} {p:o}", "0"), 8))
            found.append(now)
        return found

    def holds(self, at, condition):
        """Whether each part of a condition holds in a state; that a number changes is so of the action before it."""
        return all(self.part_holds(at, part.split()) for part in condition.split(" and "))

    def part_holds(self, at, words):
        numbers = self.states[at].numbers
        if "changes" in words:
            return self.differ(at - 1, places_of(words))
        if words[-1] == "waits":
            return self.waits[at][int(words[1], 8)]
        if words[-1] == "block":
            return (numbers[f"PHASE {words[1]}"] != "0000") == (words[2] != "not")
        if words[2] == "is":
            return numbers[f"S {words[1]}"] == words[3]
        size = 3 if words[0] == "M" else 2
        value, kind, limits = int(numbers[" ".join(words[:size])], 8), words[size], [int(word, 8) for word in words[size + 1:]]
        return {"=": value == limits[0], "!=": value != limits[0], "<": value < limits[0], ">": value > limits[0],
                "inside": limits[0] <= value <= limits[-1], "outside": not limits[0] <= value <= limits[-1]}[kind]

    def until(self, condition):
        """Returns the turns at whose end a condition holds and at whose beginning it does not. With a change in it, it does not at
        any beginning."""
        return [self.turns(at + 1) for at in range(len(self.actions)) if self.is_turn(at) and self.holds(at + 1, condition)
                and ("changes" in condition or not self.holds(at, condition))]


def places_of(words):
    """Returns the places of the words of a condition that something changes."""
    if words[-1] == "state":
        return [f"S {words[1]}"]
    if words[0] == "M" and len(words) == 5:
        return [f"M {words[1]} {cell:o}" for cell in range(int(words[2], 8), int(words[3], 8) + 1)]
    return [" ".join(words[:-1])]
