"""Each tool, each key of the panel, each request of an editor and lines typed at talk, on random sessions that end anywhere, with
and without a source and devices: nothing is a fault of a tool, both engines say the same, and what the program itself can say is as
it says.

    PP6600_ENDINGS=SEED:COUNT   makes COUNT sessions from seed SEED on (decimal)
"""

import contextlib
import functools
import io
import os
import re
from unittest import mock

from tests.debug_client import SCOPES
from tests.endings import CALLS, DEVICES, LONGER, ROOM, Hand, ended
from tests.oracle import Timeline
from tests.panels import PanelCase
from tests.support import Case, needs_library, program, tool_here, write

from pp6600 import Console
from pp6600.devices.options import device_of
from pp6600.front.commands.trace import Tracer
from pp6600.front.debug import running
from pp6600.front.debug.adapter import Adapter
from pp6600.front.debug.protocol import Wire
from pp6600.front.keys import PANEL
from pp6600.run.tape import Position
from pp6600.shell.keyboard import perform_typed
from pp6600.shell.script import performed

setUpModule = needs_library
SEED, COUNT = map(int, os.environ.get("PP6600_ENDINGS", "0:48").split(":"))
KEYS_EACH, REQUESTS_EACH, LINES_EACH = 30, 16, 12  # of a session
FAULT = re.compile("fault of the tool|Traceback|is not of the kind that it must be|^[A-Za-z]+ needs ")
PLAIN = "plain"  # the engine in Python
DUMPS = [*(f"DUMP PP {number:o}" for number in range(10)), "DUMP M 0 0 277", "DUMP M 1 0 277", "DUMP H", "DUMP CR", "DUMP LP",
         "DUMP XP"]
FEW = 400  # actions that a search action by action looks at


def sessions():
    return ((seed, ended(seed)) for seed in range(SEED, SEED + COUNT))


@contextlib.contextmanager
def replayed(lines, words=()):
    """A console of the program that has answered lines, and the lines of its answers."""
    with Console([program(), *words]) as console:
        yield console, [answer for one in console.ask_each(lines) for answer in one]


class SameMachine(Case):
    """Tests that compare a machine with what the program makes of lines."""

    def check_machine(self, lines, words, run, about):
        """Fails if the program, with these options, comes to another machine by some lines than a session is at."""
        with replayed(lines, words) as (console, _):
            self.assertEqual(*([one.ask(line) for line in DUMPS] for one in (console, run)), about)


# ---- what the program says

class Plainly:
    """What the program itself says of a session without devices, and what a search action by action finds in it."""

    def __init__(self, session):
        self.words, self.lines = session.words, session.loaded()

    @functools.cached_property
    def timeline(self):
        return Timeline([program(), *self.words], self.lines, [(0, 0, 0o177)])

    @property
    def is_short(self):
        return len(self.timeline.actions) <= FEW

    @property
    def turns(self):
        """The number of each turn, and the state before it."""
        return enumerate((at for at in range(len(self.timeline.actions)) if self.timeline.is_turn(at)), 1)

    def answers(self, case, got):
        """Compares what shows each line with its answer."""
        with replayed(self.lines, self.words) as (_, answers):
            case.assertEqual(answers, [line for line in got.out.split("\n")[:-1] if not line.startswith(">")])

    def registers(self, case, got):
        with replayed(self.lines, self.words) as (console, _):
            wanted = [console.ask(f"DUMP PP {number:o}")[0].rpartition(" SLOT")[0] for number in range(10)]
        case.assertEqual(wanted, [line[1:].partition("  AT ")[0] for line in got.out.splitlines()[:10]])

    def trace(self, case, got):
        """Compares the turns, with the processor and its P before each."""
        states = [(turn, self.timeline.states[at]) for turn, at in self.turns]
        wanted = [f"TURN {turn:o} PP {state.slot:02o} P {state.numbers[f'P {state.slot:o}']}" for turn, state in states]
        case.assertEqual(wanted, [" ".join(line.split()[:6]) for line in got.out.splitlines()])

    def touches(self, channel, case, got):
        """Compares the turns that touched a channel with what each turn of the run says of it."""
        with performed([program(), *self.words], self.lines)[0].search() as run:
            tracer, turns = Tracer(run), [position for row in run.tape.rows_of_turns() for position in range(*row)]
            wanted = [line for position in turns if (line := tracer.touch(channel, position))]
        case.assertEqual(wanted, got.out.splitlines())

    def until(self, condition, case, got):
        wanted = [f"{turn:o}" for turn in self.timeline.until(condition)] or ["NONE"]
        case.assertEqual(wanted, [line.split()[line != "NONE"] for line in got.out.splitlines()])

    def changes(self, place, case, got):
        """Compares the turns in which a place changed; of a channel its state too."""
        places = [place, *([f"S{place[1:]}"] if place[0] == "H" else [])]
        wanted = [f"{turn:o}" for turn, at in self.turns if self.timeline.differ(at, places)]
        case.assertEqual(wanted, [words[1] for line in got.out.splitlines() if (words := line.split())[2:3] == ["PP"]])

    def cells(self, first, last, case, got):
        with replayed(self.lines, self.words) as (console, _):
            rows = console.ask(f"DUMP M 0 {first} {last}")
        case.assertEqual([word for row in rows for word in row.split()[1:]], got.out.split())


# ---- the tools

class Tools(Case):
    """The tools that look at a run, on each engine."""

    def called(self, name, words, session, engine):
        """Calls a tool. Returns what it wrote and its status, which must be no fault."""
        got = tool_here(name, *session.options, *engine, *words, script=session.script)
        self.assertNotRegex(got.out + got.err, FAULT)
        self.assertIn(got.status, (0, 1, 2))
        if got.status == 2:
            self.assertRegex(got.err, rf"\A{name}: .*\n\Z")
        return got

    def check(self, seed, session, name, words, how=None):
        """Calls a tool on a session on both engines, which must say the same, and compares it with what is known otherwise."""
        with self.subTest(name, words=words, seed=seed):
            got = self.called(name, words, session, [])
            if how and not session.has_devices:
                how(self, got)
            if name not in ("waits", "film") or "NO PROCESSOR" in got.out:  # else it tries long whether one waits for ever
                self.assertEqual(got, self.called(name, words, session, ["--program", PLAIN]))

    def test_tools(self):
        for seed, session in sessions():
            with session.begun() as run:
                turns = run.turn
            for name, words, *how in calls(Hand(seed, session), Plainly(session), turns):
                self.check(seed, session, name, words, *how)


def calls(hand, plainly, turns):
    """Yields for each tool its words, at random, and for some what compares its text."""
    some, turn, session = hand.some, hand.octal(turns), hand.session
    place, condition = hand.place(), hand.condition()
    is_plain = re.fullmatch("[APQH] [0-9]+|M 0 [0-9]+", place)
    script = write(os.path.join(ROOM, "script"), session.script)
    yield "state", some("--turn", turn)
    yield "state", [], plainly.registers
    yield "show", [], plainly.answers
    yield "show", ["--stop"] if session.has_devices else ["--turn", turn]
    yield "talk", [], plainly.answers
    yield "changes", ["--turns", hand.octal(9) if turns else "1"]
    yield "changes", place.split(), functools.partial(plainly.changes, place) if is_plain else None
    yield "origin", [*place.split(), *some("--turn", turn), *some("--why"), *some("--addresses"), *some("--all")]
    yield "until", [condition, *some("--all"), *some("--last"), *some("--from", hand.octal(turns + 1))]
    yield "trace", [*some("--channel", hand.one(("5", "11", "14"))), *some("--processor", "0"), *some("--last", "3"),
                    *some("--from", turn)]
    yield "waits", some("--turn", turn)
    yield "save", ["0", "100", "177"], functools.partial(plainly.cells, "100", "177")
    if not session.has_devices:
        other = ["--other-source", "0", LONGER] if session.has_source and hand.chance.random() < .5 else []
        yield "compare", [*some("--path"), *other, script, hand.one((script, os.devnull))]
    if hand.chance.random() < .2:
        yield "film", ["-o", os.path.join(ROOM, "film.html")]
    if not session.has_devices and plainly.is_short:
        condition = hand.plain_test()
        yield "until", [condition, "--all"], functools.partial(plainly.until, condition)
        yield "trace", [], plainly.trace
        if not session.has_source:  # whose lines would be beside the turns
            channel = hand.one((0, 1, 5, 0o11, 0o12, 0o14))
            yield "trace", ["--channel", f"{channel:o}"], functools.partial(plainly.touches, channel)


# ---- the panel

# Of each key that begins a line what is typed then.
TYPED = {":": Hand.line, "g": Hand.place, "G": lambda hand: hand.octal(0o40), "u": Hand.condition, "U": Hand.condition,
         "/": lambda hand: hand.one(("0", "1400 2", "8")), "w": lambda hand: hand.one(("", f"{ROOM}/saved", f"! {ROOM}/saved")),
         "K": lambda hand: "A\\r"}
KEYS = sorted({*PANEL, "Enter", "1", "2"} - {"Ctrl-Z", "Ctrl-L"})  # those two are the terminal's
SIZES = (80, 24), (80, 24), (132, 50), (40, 10), (20, 5)


class Panels(PanelCase, SameMachine):
    """Keys of the panel, which draws its screen after each."""

    def test_keys(self):
        for seed, session in sessions():
            with self.subTest(seed=seed):
                self.check(Hand(seed, session), session)

    def check(self, hand, session):
        panel = self.panel(session.script, *session.words, sources=[(0, CALLS)] * session.has_source,
                           devices=list(map(device_of, DEVICES * session.has_devices)))
        panel.session.most_new = min(panel.session.most_new, 0o1000)
        pressed = []
        for _ in range(KEYS_EACH):
            for key in keys_of(hand, panel):
                pressed.append(key)
                with self.subTest(keys=" ".join(pressed)):
                    panel.press(key)
            panel.resize(*hand.one(SIZES))
            panel.screen()
        self.check_machine(panel.session.sent, session.words, panel.session.simulator, " ".join(pressed))


def keys_of(hand, panel):
    """Returns a key; of one that begins a line the keys of this too."""
    key = hand.one(KEYS)
    if key not in TYPED or panel.page or panel.prompt or panel.asked:
        return [key]
    return [key, *hand.one(([*TYPED[key](hand)], [*TYPED[key](hand)], ["Up", "Down", "Up"])),
            hand.one(("Enter", "Enter", "Escape"))]


# ---- the debug adapter

class Editor(Wire):
    """An editor in this process: it keeps what is written, and asks for a pause when a run has looked so often for requests."""

    def __init__(self):
        self.messages, self.requests, self.seq, self.looks, self.is_gone = [], self, 0, 0, False

    def write(self, **message):
        self.messages.append(message)

    def empty(self):
        self.looks -= 1
        return self.looks != 0

    def get(self):
        return {"seq": 0, "command": "pause", "arguments": {"threadId": 1}}


class Requests:
    """Requests of an editor, at random."""

    def __init__(self, hand, adapter, launch):
        self.hand, self.adapter, self.launch = hand, adapter, launch

    def point(self, **where):
        """Returns a breakpoint, with terms or without."""
        hand = self.hand
        terms = {"condition": hand.condition(), "hitCondition": hand.one(("2", ">= 3", "% 2", "x")),
                 "logMessage": hand.one(("AT {P}", "{NO} {M 0 20}"))}
        return {**where, **dict(hand.some(*terms.items()))}

    def points(self, where):
        return {"breakpoints": [self.point(**where()) for _ in range(self.hand.chance.randrange(3))]}

    def source(self):
        is_own = self.hand.session.has_source and self.hand.chance.random() < .7
        return {"path": CALLS if is_own else self.adapter.listings.path(0)}

    def all(self):
        """Returns the arguments of each request."""
        hand, draw = self.hand, self.hand.chance.randrange
        thread = {"threadId": hand.one((1, 1 + draw(10)))}
        scope = {"variablesReference": hand.one([*SCOPES.values()]) + hand.one((0, draw(10)))}
        reference, frame = {"memoryReference": f"0x{draw(10) << 16 | 2 * draw(0o200):06x}"}, {"frameId": 1 + draw(10)}
        step = {**thread, "granularity": hand.one(("statement", "line", "instruction"))}
        return {
            **dict.fromkeys(("restart", "configurationDone", "terminate", "disconnect", "threads", "setExceptionBreakpoints"), {}),
            **dict.fromkeys(("pause", "stackTrace", "continue", "reverseContinue", "stepIn", "stepOut"), thread), "next": step,
            "stepBack": step,
            "initialize": {"linesStartAt1": True, "supportsInvalidatedEvent": True}, "launch": self.launch,
            "source": hand.one(({"source": {"path": self.adapter.listings.path(0)}}, {"sourceReference": 3})), "scopes": frame,
            "variables": scope,
            "setVariable": {**scope, "name": hand.one(("A", "P", "H 05", "PHASE", hand.place())),
                            "value": hand.one(("3", "E 5", "9"))},
            "evaluate": hand.one(({"expression": hand.line(), "context": "repl"},
                                  {"expression": hand.place(), "context": "hover", **frame},
                                  {"expression": hand.cell(), "context": "watch", **frame},
                                  {"expression": f":{hand.line()}", "context": "watch"})),
            "readMemory": {**reference, "count": hand.one((0, 3, 10000)), "offset": hand.one((0, 2, -2))},
            "writeMemory": {**reference, "data": hand.one(("AAEPBw==", "AAE=", "////", "x"))},
            "disassemble": {**reference, "instructionCount": 5, "instructionOffset": hand.one((0, -3))},
            "gotoTargets": {"source": self.source(), "line": draw(40)},
            "goto": {**thread, "targetId": hand.one((64, 4095, 4165, 1 << 20))},
            "setBreakpoints": {"source": self.source(), **self.points(lambda: {"line": 1 + draw(110)})},
            "setInstructionBreakpoints": self.points(lambda: {"instructionReference": reference["memoryReference"]}),
            "setDataBreakpoints": self.points(lambda: {"dataId": hand.one((hand.place(), "M 0 20 23"))}),
            "dataBreakpointInfo": hand.one(({"name": hand.place()}, {"name": "A", **scope}))}


# requests that a session begins or ends with
AT_ENDS = "launch", "restart", "terminate", "disconnect", "initialize", "configurationDone"


class Adapters(SameMachine):
    """Requests of an editor, each answered, and refused by a sentence of its own if at all."""

    def test_all_requests(self):
        known = {name[len("do_"):] for name in dir(Adapter) if name.startswith("do_")}
        self.assertEqual(known, set(Requests(Hand(1, ended(1)), mock.Mock(), {}).all()))

    def test_requests(self):
        for seed, session in sessions():
            for engine in (program(), PLAIN):
                with self.subTest(seed=seed, engine=engine), mock.patch.object(running, "AT_ONCE", 0o100):
                    self.check(Hand(seed, session), session, engine)

    def check(self, hand, session, engine):
        launch = {"program": engine, "script": write(os.path.join(ROOM, "script"), session.script),
                  "history": (session.words or ["10000"])[-1],
                  "sources": {"0": CALLS} if session.has_source else {}, "devices": [*DEVICES] * session.has_devices}
        asked = []
        with contextlib.closing(Adapter(Editor())) as adapter:
            some = Requests(hand, adapter, launch)
            for command, arguments in (("initialize", {}), ("launch", launch), ("configurationDone", {})):
                self.ask(adapter, command, arguments, asked)
            for _ in range(REQUESTS_EACH):
                command, arguments = hand.one([one for one in some.all().items() if one[0] not in AT_ENDS])
                self.ask(adapter, command, arguments, asked)
            machine = adapter.machine
            self.check_machine(machine.tape.lines(Position(0), machine.position, with_watches=False), (), machine, asked)
            for command in hand.one((["restart", "disconnect"], ["terminate"], ["disconnect"])):
                self.ask(adapter, command, {}, asked)

    def ask(self, adapter, command, arguments, asked):
        """Asks for something, which is answered."""
        editor = adapter.wire
        asked.append((command, arguments))
        editor.messages, editor.looks = [], 3
        with self.subTest(asked=asked[-1]):
            adapter.answer({"seq": len(asked), "command": command, "arguments": arguments})
            (answer,) = [one for one in editor.messages if one["type"] == "response" and one["request_seq"] == len(asked)]
            self.assertNotRegex(answer.get("message", ""), FAULT)


class Typed(SameMachine):
    """Lines typed at the prompt of talk, undo and redo among them."""

    def test_lines(self):
        for seed, session in sessions():
            hand, typed = Hand(seed, session), []
            with self.subTest(seed=seed), session.begun() as run, contextlib.redirect_stdout(io.StringIO()):
                for _ in range(LINES_EACH):
                    typed.append(hand.one((hand.line(), hand.line(), "undo", "undo 5", "redo", "redo 100")))
                    perform_typed(run, typed[-1], mock.Mock())
                self.check_machine(run.sent, session.words, run, typed)
