"""Devices of one's own, in sessions and in the debug adapter; tests/debug has a dialogue.

    PP6600_DEVICES=SEED:COUNT   makes COUNT random sessions from seed SEED on. The default is 0:4
"""

import os
import random
from types import SimpleNamespace

from tests.device_law import (
    DUMPS, PANEL, Definition, FewStates, OfCentralMemory, RandomDevice, Session, TwoOnAChannel, first_difference, random_program)
from tests.support import Case, program

from pp6600 import INACTIVE, NOTHING, Attached, CentralDevice, Device, Failure, full
from pp6600.language.cells import set_lines
from pp6600.front.debug.debugged import MachineWithDevices
from pp6600.front.debug.running import Runner
from pp6600.run.device import Chain, Reply, chain_of, is_value
from pp6600.run.tape import ReplyLine

NO_POINTS = SimpleNamespace(all=(), in_a_step=())
SEED, COUNT = map(int, os.environ.get("PP6600_DEVICES", "0:4").split(":"))


class Law(Case):
    def test_sessions_are_as_defined(self):
        panel = self.file(PANEL)
        for number in range(SEED, SEED + COUNT):
            self.assertIsNone(first_difference(number, panel))

    def test_two_devices_on_one_channel(self):
        """100 (decimal) short sessions with two equipments behind one controller."""
        panel = self.file(PANEL)
        for number in range(SEED, SEED + 25 * COUNT):
            self.assertIsNone(first_difference(number, panel, 6, kind=TwoOnAChannel))

    def test_devices_of_central_memory(self):
        panel = self.file(PANEL)
        for number in range(SEED, SEED + 2 * COUNT):
            self.assertIsNone(first_difference(number, panel, kind=OfCentralMemory))

    def test_walks_of_the_debug_adapter(self):
        panel = self.file(PANEL)
        for number in range(SEED, SEED + COUNT):
            walk = Walk(number, panel)
            self.addCleanup(walk.machine.close)
            for move in range(30):
                walk.move()
                if walk.choose.random() < 0.3:
                    self.assertIsNone(walk.difference(), f"seed {number}, move {move}")


class Walk:
    """A random walk of a machine with devices."""

    def __init__(self, seed, panel):
        self.choose = choose = random.Random(seed)
        channels = choose.sample([0, 1, 5, 0o11], choose.randint(1, 3))
        self.words = [program(), "--panel", panel]
        self.devices = [RandomDevice(choose.randrange(4000), channel) for channel in channels]
        self.machine = MachineWithDevices(self.words, self.devices)
        self.places = [f"H {channel:o}" for channel in channels]
        for at, number in enumerate(choose.sample(range(10), 3)):
            for line in set_lines(number, 0o100, [f"{word:04o}" for word in random_program(choose, channels, at == 0)]):
                self.machine.act(line)
            self.machine.act(f"SET P {number:o} 100")

    def move(self):
        """Makes one random move, from where the machine was looked at. A run ends after some parts."""
        choose, machine = self.choose, self.machine
        machine.look()
        parts = iter([True] * choose.randint(1, 12))
        runner = Runner(machine, NO_POINTS, lambda: next(parts, False))
        choose.choice((
            lambda: runner.step(choose.randrange(10)), lambda: runner.forward(None), runner.back,
            lambda: machine.typed(f"STEP {choose.randint(1, 100):o}"), lambda: machine.typed(f"BACK {choose.randint(1, 60):o}"),
            lambda: machine.typed(f"FORWARD {choose.randint(1, 20):o}"), lambda: machine.typed(f"SET A {choose.randrange(10)} 3"),
            lambda: machine.typed(f"{choose.choice(('WATCH', 'UNWATCH'))} {choose.choice(self.places)}")))()

    def difference(self):
        """Returns how the machine differs from the definition of its actions; None if it does not."""
        tape = self.machine.tape
        lines = [action.line for action in tape.actions(0, self.machine.position) for _ in range(action.times)]
        defined = Definition(self.words, self.devices, [line for line in lines if not isinstance(line, ReplyLine)])
        if lines != defined.script:
            return "the tape has other replies"
        return next((line for line, answer, wanted in zip(DUMPS, self.machine.ask_each(DUMPS), defined.console.ask_each(DUMPS))
                     if answer != wanted), None)


class NothingIsDue(Definition):
    def due(self, number):
        return []


class RepliesChangeNothingWatched(Definition):
    def make_turn(self):
        super().make_turn()
        self.hits[-1] = None if (self.hits[-1] or "").startswith("HIT H") else self.hits[-1]


class NewBeforeDue(Definition):
    def in_order(self, due, new):
        return [*new, *due]


class OwnStoreIsSeen(Definition):
    def leave(self, number, replies):
        if not isinstance(self.devices[number], CentralDevice):
            super().leave(number, replies)


class StoreOfAnotherIsNotSeen(Definition):
    def leave(self, number, replies):
        for other, device in enumerate(self.devices):
            if other == number or isinstance(device, CentralDevice) and isinstance(self.devices[number], CentralDevice):
                super().leave(other, replies)


class DueATurnLate(Definition):
    def due(self, number):
        self.turn -= 1
        due = super().due(number)
        self.turn += 1
        return due


class LastAskedIsFirst(Definition):
    def due(self, number):
        return super().due(number)[::-1]


class WrongDefinitions(Case):
    """Sessions differ from a definition that is wrong."""

    def test_each(self):
        panel = self.file(PANEL)
        for kind, slips in ((Session, (NothingIsDue, RepliesChangeNothingWatched)),
                            (OfCentralMemory, (NewBeforeDue, OwnStoreIsSeen, StoreOfAnotherIsNotSeen, DueATurnLate,
                                               LastAskedIsFirst))):
            for wrong in slips:
                with self.subTest(wrong.__name__):
                    self.assertTrue(any(first_difference(seed, panel, 20, wrong, kind) for seed in range(40)))


class Echo(Device):
    """A device whose reply to a function code is one of these, by the code."""

    replies = (INACTIVE, 5, full(0o10000), Reply("X"), Reply("I", wake=0))
    start = ()

    def function(self, state, event):
        if event.word == 0o77:
            raise ValueError("no such code")
        return (state, [event.word])[event.word == 0o60], self.replies[event.word % 0o10]


FUNCTION = "SET M 0 100 7711 {:o} 7411 0300"


class Refusals(Case):
    def begun(self, *devices, code=0):
        """Returns a session whose processor gives a function code at 0100."""
        session = Attached([program(), "--reader", "5", "--printer", "6"], devices)
        self.addCleanup(session.close)
        for line in FUNCTION.format(code), "SET P 0 100":
            self.assertEqual(["OK"], session.act(line))
        return session

    def test_what_is_no_device(self):
        with self.assertRaisesRegex(Failure, "^1 is not a Device$"):
            self.begun(1)

    def test_a_session_without_a_device(self):
        session = self.begun()
        self.assertEqual(["TURNS 10000 SLOT 06"], session.act("STEP 10000"))
        self.assertEqual(["BACK 10000 SLOT 00"], session.act("BACK 10000"))

    def test_states_that_can_change(self):
        for state, wanted in (((1, "a", b"", None, frozenset((1,))), True), ([], False), ((1, [2]), False), ({}, False),
                              (object(), False), (Chain(), True), (bytearray(), False), (chain_of("abc"), True)):
            with self.subTest(state):
                self.assertEqual(wanted, is_value(state))
        self.assertRaises(Failure, Chain().push, [])
        self.assertEqual((list("abc"), chain_of("abc")), (chain_of("abc").items(), chain_of("ab").push("c")))

    def test_failures(self):
        for code, message in ((0o77, "function of Echo fails: ValueError: no such code"), (1, "must return a state and a Reply"),
                              (2, "can't reply F 4096"), (3, "can't reply X None"), (4, "can't wake after 0 turns"),
                              (0o70, ""), (0o60, "can be changed in place")):
            session = self.begun(Echo(), code=code)
            before = [session.act(line) for line in DUMPS]
            if not message:
                self.assertEqual(["TURNS 12 SLOT 00"], session.act("STEP 12"))
                continue
            with self.subTest(code), self.assertRaises(Failure) as caught:
                session.act("STEP 12")
            self.assertIn(message, str(caught.exception))
            self.assertEqual((before, 2, ()), ([session.act(line) for line in DUMPS], session.unit, session.state()))
            self.assertEqual(["BACK 2 SLOT 00"], session.act("BACK 2"))

    def test_what_is_ahead_stays_when_a_device_fails(self):
        session = self.begun(Echo(), code=0)
        # The second instruction becomes an FNC too, whose code makes the device fail in the second turn of PP 00.
        for line in "SET M 0 102 7711 77", "STEP 3", "SET A 0 5", "WATCH H 11", "STEP 1":
            session.act(line)
        before = session.save(), session.sent[:]
        session.act("BACK 3")
        with self.assertRaises(Failure):
            session.act("STEP 20")
        self.assertEqual((["FORWARD 3 SLOT 04"], before[0]), (session.act("FORWARD 3"), session.save()))
        self.assertEqual([*before[1], "BACK 3", "FORWARD 3"], session.sent)


class Notes(Device):
    """A device whose state has each event."""

    start = ()

    def note(self, state, event):
        return (*state, event), INACTIVE if event.kind == "function" else NOTHING

    function = word = activated = taken = disconnected = told = note


class Told(Case):
    def test_replay(self):
        """What a device was told is told again when a state is worked out anew."""
        session = FewStates([program()], [Notes()])
        self.addCleanup(session.close)
        for what in range(0o50):
            session.tell(0, what)
        for count in range(1, 0o50):
            session.act("BACK 1")
            self.assertEqual(list(range(0o50 - count)), [event.word for event in session.state()])
        self.assertEqual(["ERR 07 TOO FEW KEPT"], session.act("BACK 2"))
