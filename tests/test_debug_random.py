"""Random sessions with the debug adapter, against a search action by action: what the editor is told is what a simulator with an
endless history would answer, in which nothing is watched but what the user watches. Breakpoints have conditions, counts of hits and
texts."""

import os
import random
from typing import NamedTuple

from tests.debug_client import SCOPES, OwnClient
from tests.generator import WATCHED, Maker
from tests.oracle import Timeline, in_effect
from tests.support import Case, program

from pp6600 import Console

SESSIONS = int(os.environ.get("PP6600_DEBUG_SESSIONS", "10"))  # in the gate; by hand 200
FIRST = int(os.environ.get("PP6600_DEBUG_SEED", "0"))
MOVES = 10  # of a session
ACTIONS = 2500  # of the script and after it that are searched
PROCESSORS = 10
PROGRAM = 0o100
PANEL = os.path.join("examples", "dead-start", "panel")
MOVE_KINDS = ("continue",) * 4 + ("reverseContinue",) * 3 + ("stepIn", "stepIn", "stepBack", "stepBack", "typed", "typed", "typed")


def condition(chance, numbers):
    """Returns a condition, or none."""
    number, bound = chance.choice(numbers), chance.randrange(0o60)
    return chance.choice((None, None, f"A {number:o} < {bound:o}", "M 0 20 != 0 and H 1 is E", f"P {number:o} inside 100 104",
                          f"A {number:o} changes"))


HITS = {None: lambda count: True, "2": lambda count: count == 2, "= 3": lambda count: count == 3, ">=3": lambda count: count >= 3,
        "< 4": lambda count: count < 4, "% 3": lambda count: count % 3 == 0}


class Point(NamedTuple):
    """A breakpoint on a cell, or on a place, with its terms. A log point writes what the accumulator of its processor is."""

    at: object  # a pair of a processor and digits, or a place
    condition: object
    hits: object
    is_log: bool

    def asked(self, **where):
        """Returns what an editor asks for."""
        return {**where, **({"condition": self.condition} if self.condition else {}),
                **({"hitCondition": self.hits} if self.hits else {}),
                **({"logMessage": f"L {self.at[0]:o} {self.at[1]} {{A}} {{M 0 20}}"} if self.is_log else {})}


def places(numbers):
    """Returns the places that may be watched."""
    return ["H 1", "M 0 20", *(f"A {number:o}" for number in numbers)]


class Oracle(Timeline):
    """A simulator with an endless history, at a position of a run: the program itself, which answers lines, and the states of the
    run. Up to its end there are actions ahead, then turns that may follow."""

    def __init__(self, lines):
        self.words, self.looks = [program(), "--panel", PANEL], [(0, 0o20, 0o20)]
        self.console = Console([*self.words, "--history", "10000"])
        self.actions, ahead = in_effect(self.words, lines)
        list(self.console.ask_each(lines))
        self.now = len(self.actions)
        self.actions += ahead
        self.end = len(self.actions)
        self.look()

    # ---- the run

    def look(self):
        self.actions[self.end:] = ["STEP"] * (ACTIONS - self.end)
        super().look()

    def act(self, line):
        """Performs a line, and returns its answer."""
        answer = self.console.ask(line)
        kind, *rest = answer[0].split()
        count = int(rest[0], 8) if kind in ("BACK", "FORWARD", "TURNS") else 1
        if kind in ("OK", "TURNS"):
            self.actions[self.now:] = [line] if kind == "OK" else ["STEP"] * count
            self.end = self.now + count
            self.look()
        self.now += {"BACK": -count, "OK": count, "TURNS": count, "FORWARD": count}.get(kind, 0)
        return "\n".join(answer)

    def go(self, now):
        """Goes to a position, over the actions ahead and then by new turns."""
        ahead = min(now, self.end) - self.now
        for word, count in (("BACK", -ahead), ("FORWARD", ahead), ("STEP", now - max(self.now, self.end))):
            if count > 0:
                self.console.demand(f"{word} {count:o}")
        self.now, self.end = now, max(self.end, now)

    # ---- what is there

    def slot(self, at):
        return self.states[at].slot

    def where(self, at, number):
        """Returns P and the phase of a processor."""
        return self.states[at].registers(number)[::3]

    def watched(self, at):
        """Returns the places that are watched at a position, the oldest first."""
        found = []
        for action in self.actions[:at]:
            if action.startswith("WATCH "):
                found.append(action[6:])
            elif action.startswith("UNWATCH "):
                found.remove(action[8:])
        return found

    def value(self, at, place):
        return self.states[at].numbers[place]

    def changed(self, at, some):
        """Returns the first place of some that the action after a position changes; or None."""
        return next((place for place in some if self.value(at, place) != self.value(at + 1, place)), None)

    # ---- where it stops

    def comes(self, at, cell, is_here=False):
        """Whether at a position the processor whose turn is next has come to a cell. Where the machine is, what was set last does
        not matter."""
        number = self.slot(at)
        here = self.where(at, number)
        if (number, here[0]) != cell or here[1] != "0000":
            return False
        if at and not is_here and not self.is_turn(at - 1) and self.slot(at - 1) == number and self.where(at - 1, number) == here:
            return False
        before = next((before for before in reversed(range(at)) if self.is_turn(before) and self.slot(before) == number), None)
        return before is None or self.where(before, number) != here

    def is_hit(self, at, point):
        """Whether a position is a hit of a breakpoint: it is on what has come, or has changed, and its condition holds."""
        if isinstance(point.at, str):
            comes = at > 0 and self.changed(at - 1, [point.at])
        else:
            comes = self.comes(at, point.at)
        return bool(comes) and self.meets(at, point)

    def meets(self, at, point):
        """Whether the condition of a breakpoint holds at a position. A number changes by a turn."""
        if not point.condition or "changes" in point.condition and not (at and self.is_turn(at - 1)):
            return not point.condition
        return self.holds(at, point.condition)

    def counts(self, at, point):
        """Whether the hit at a position is one that counts, by its number from the beginning."""
        return not point.hits or HITS[point.hits](sum(self.is_hit(one, point) for one in range(at + 1)))

    def change(self, at, watched, points):
        """Returns the first place that the action after a position changes and that ends a run; or None."""
        for place in dict.fromkeys([*watched, *(point.at for point in points if isinstance(point.at, str))]):
            if self.changed(at, [place]) and (place in watched or any(
                    point.at == place and self.is_hit(at + 1, point) and self.counts(at + 1, point) for point in points)):
                return place
        return None

    def stops(self, at, points):
        """Returns whether a breakpoint ends a run at a position, for what has come there. Notes what log points write."""
        met = [point for point in points if not isinstance(point.at, str) and self.is_hit(at, point) and self.counts(at, point)]
        self.said += [f"L {point.at[0]:o} {point.at[1]} {self.value(at, f'A {point.at[0]:o}')} {self.value(at, 'M 0 20')}\n"
                      for point in met if point.is_log]
        return any(not point.is_log for point in met)

    def forward(self, shown, points):
        now, self.said = self.now, []
        if self.slot(now) != shown and any(self.comes(now, point.at, True) and self.meets(now, point) and self.counts(now, point)
                                           for point in points if not point.is_log and not isinstance(point.at, str)):
            return now, "breakpoint", ""
        return self.run(points, lambda at: False)

    def run(self, points, is_end):
        """Goes on until a number or a breakpoint ends the run, or after a turn that does."""
        watched = self.watched(self.now)
        for at in range(self.now, ACTIONS - 1):
            place, stops = self.change(at, watched, points), self.stops(at + 1, points)
            if place:
                return at + 1, "data breakpoint", self.text(place, at, "{} was {} and is {}")
            if stops or is_end(at):
                return at + 1, "breakpoint" if stops else "step", ""
            watched = self.watched(at + 1) if is_watch(self.actions[at]) else watched
        return None

    def back(self, points):
        self.said, watched = [], self.watched(self.now)
        for at in reversed(range(self.now)):
            place, stops = self.change(at, watched, points), self.stops(at, points)
            if place:
                return at, "data breakpoint", self.text(place, at, "{} is {}, and will be {}")
            if stops:
                return at, "breakpoint", ""
        return 0, "entry", ""

    def text(self, place, at, form):
        return form.format(" ".join(place_text(place)), self.value(at, place), self.value(at + 1, place))

    def step(self, number, points):
        self.said = []
        points = [point for point in points if isinstance(point.at, str) or point.is_log]
        return self.run(points, lambda at: self.is_turn(at) and self.slot(at) == number)

    def step_back(self, number):
        self.said = []
        for at in reversed(range(self.now)):
            if self.is_turn(at) and self.slot(at) == number:
                return at, "step", ""
        return 0, "step", ""


def is_watch(action):
    return action.startswith(("WATCH", "UNWATCH"))


def place_text(place):
    """Returns the words of a place as answers have them."""
    kind, *numbers = place.split()
    return [kind, f"{int(numbers[0], 8):02o}", *(f"{int(number, 8):04o}" for number in numbers[1:])]


class Session(Case):
    """Sessions by the numbers of their seeds."""

    def session(self, seed):
        self.chance = chance = random.Random(seed)
        self.maker = Maker(seed, WATCHED)
        lines, self.numbers = self.maker.script(), self.maker.processors
        self.oracle = Oracle(lines)
        self.addCleanup(self.oracle.console.close)
        self.client = OwnClient()
        self.addCleanup(self.client.end)
        history = chance.choice((None, 10000, 100, 50))
        self.what = f"seed {seed}, history {history}"
        path = self.file("".join(f"{line}\n" for line in lines))
        self.shown = self.client.launch(script=path, processor=f"{self.numbers[0]:o}", panel=PANEL,
                                        **({"history": history} if history else {}))["threadId"] - 1
        self.folder = os.path.dirname(self.client.listing())
        for move in range(MOVES):
            if not move % 3:
                self.set_breakpoints()
            self.move(move)
        self.assertEqual((0, ""), self.client.end())

    def set_breakpoints(self):
        chance = self.chance
        cells = {(chance.choice(self.numbers), f"{PROGRAM + chance.randrange(0o20):04o}") for _ in range(chance.randrange(5))}
        lines = [self.point(cell, chance.random() < 0.3) for cell in sorted(cells)]
        data = [self.point(place, False) for place in chance.sample(places(self.numbers), chance.randrange(3))]
        for number in range(PROCESSORS):
            asked = [point.asked(line=int(point.at[1], 8) + 1) for point in lines if point.at[0] == number]
            points = self.client.ask("setBreakpoints", source={"path": f"{self.folder}/PP{number:02o}.pplist"},
                                     breakpoints=asked)["breakpoints"]
            self.assertTrue(all(point["verified"] for point in points), points)
        self.client.ask("setDataBreakpoints", breakpoints=[point.asked(dataId=point.at) for point in data])
        self.points = [*lines, *data]

    def point(self, at, is_log):
        """Returns a breakpoint, whose terms are by chance."""
        chance = self.chance
        return Point(at, condition(chance, self.numbers), chance.choice((None, None, None, *HITS)), is_log)

    def move(self, move):
        """Makes a random move, and compares what the editor is told."""
        kind = self.chance.choice(MOVE_KINDS)
        number = self.chance.choice((self.shown, self.chance.randrange(PROCESSORS)))
        what = f"{self.what}, move {move}, {kind}"
        if kind == "typed":
            self.type(what)
        else:
            oracle = self.oracle
            expected = {"continue": lambda: oracle.forward(self.shown, self.points),
                        "reverseContinue": lambda: oracle.back(self.points),
                        "stepIn": lambda: oracle.step(number, self.points), "stepBack": lambda: oracle.step_back(number)}[kind]()
            if expected is None:
                return
            self.go(kind, number, expected, what)
        self.compare(what)

    def type(self, what):
        """Types a line."""
        count = self.chance.choice((1, 12, 100, 1000))
        lines = (self.setting(), "BACK W", f"BACK {self.chance.randrange(1, 1 + count):o}",
                 f"FORWARD {self.chance.randrange(1, 1 + count):o}", f"STEP {self.chance.randrange(1, 0o100):o}")
        line = self.chance.choice(lines)
        expected = self.oracle.act(line)
        got = self.client.typed(line)
        if got == "OK" and line == "DEADSTART":
            self.client.event("stopped")
        self.assertEqual(expected, got, f"{what} {line}")

    def setting(self):
        """Returns a line that sets a number, begins or ends a watch, or goes back."""
        self.maker.lines.clear()
        self.maker.add_kind(self.chance.choice(("setting", "setting", "watch_near", "back", "start")))
        return self.maker.lines[0].decode()

    def go(self, kind, number, expected, what):
        """Runs the machine, and compares why it stops."""
        self.client.shown.clear()
        stop = self.client.stop_after(kind, threadId=number + 1)
        self.assertEqual(self.oracle.said, [text for text in self.client.shown if text.startswith("L ")], what)
        now, reason, text = expected
        before = self.oracle.now
        self.oracle.go(now)
        self.assertEqual(reason, stop["reason"], what)
        if reason == "breakpoint":
            self.assertEqual(self.oracle.slot(now), stop["threadId"] - 1, what)
        elif reason == "data breakpoint":
            changed = now if kind == "reverseContinue" else now - 1
            self.assertEqual((text, self.oracle.slot(changed)), (stop["text"], stop["threadId"] - 1), f"{what} from {before}")
        self.shown = stop["threadId"] - 1

    def compare(self, what):
        """Compares where the machine is, what is ahead and what is watched."""
        oracle = self.oracle
        words = [self.client.typed(f"DUMP PP {one:o}").split() for one in range(PROCESSORS)]
        found = self.client.ask("variables", variablesReference=SCOPES["history"])["variables"]
        history = {one["name"]: int(one["value"], 8) for one in found}
        state, kept = oracle.states[oracle.now], oracle.now
        self.assertEqual({"turns": oracle.turns(kept), "kept": kept, "ahead": oracle.end - kept, "slot": state.slot}, history, what)
        self.assertEqual([state.registers(number) for number in range(PROCESSORS)], [one[3:10:2] for one in words], what)
        watched = [" ".join(["W", *place_text(place)]) for place in oracle.watched(oracle.now)]
        self.assertEqual("\n".join(watched) or "W NONE", self.client.typed("DUMP W"), what)

    def test_sessions(self):
        for seed in range(FIRST, FIRST + SESSIONS):
            with self.subTest(seed=seed):
                self.session(seed)
