"""Random sequences of the library's calls, with what the page LIBRARY and the header say of each: which status, what is written,
and that nothing else changes. The simulator in plain Python is at the same machine, and the records of turns are put back here.

    python3 -m tests.library_calls [SEQUENCES]     runs so many (decimal), with the library of dist/
"""

import ctypes
import hashlib
import random
import struct
import sys
from array import array

from tests.generator import ALL, BUSY, LOOPS, WATCHED as WATCHING, Maker
from tests.support import PROVED, read

from pp6600.engine import interface
from pp6600.engine.interface import Form
from pp6600.engine.library import Made, turns_of
from pp6600.engine.origins import Origins
from pp6600.engine.plain import places
from pp6600.engine.plain.instructions import CODES
from pp6600.engine.plain_engine import PlainEngine, flat_place

DONE, ROOM, WATCHED, CLOSED, OPEN, NO_MEMORY, REFUSED, LIMIT, NOT_FOUND = range(9)
CENTRAL = 32768
PLACES = interface.CENTRAL + CENTRAL
MOST_OLDS, ANY_LINE = 76, 96  # places of one action; bytes of the answer to a line that is no DUMP
MOST_LINKS, MOST_TURN_LINKS, MOST_CONTROL = 33, 44, 7  # of a processor's step, of a turn; control places of a turn
GUARD = bytes(range(200, 232))  # before and behind each buffer
PATTERN = bytes(range(1, 251))  # what is in a buffer before a call
TYPES = {"u8": ctypes.c_uint8, "u32": ctypes.c_uint32, "size": ctypes.c_uint64}
BOUNDS = (0, 1, 2, 2 ** 31, 2 ** 32 - 1)
SOURCES = (b"", b"          LDN    5\n",
           b"          ORG    100B\nSTART     LDN    5\n          UJN    START\n          END    START\n")
FAULTY = (b"          LDN    LATER\n", b"A         LDN    5\nA         LDN\n")
FILES = ((b"", ""), (b"1\n8\n", "DECK LINE 2 NOT OCTAL"), (b"1\n" * 2001, "DECK TOO LONG"))


class Memory:
    """A buffer of a call: bytes between two guards. `old` is what it had before the call, and `new` afterwards."""

    def __init__(self, old, written=None):
        self.old = self.new = bytes(old)
        self.written = written or self.old.hex()  # in a trace

    @classmethod
    def filled(cls, count):
        """Returns a buffer of so many bytes that are not 0."""
        return cls((PATTERN * (count // len(PATTERN) + 1))[:count], {"filled": count})

    @property
    def is_same(self):
        return self.old == self.new

    def number(self):
        return int.from_bytes(self.new, "little")

    def words(self, code):
        return array(code, self.new)


class Native:
    """The calls of a library in this process. It keeps what each was given and what it came to, for another to do the same."""

    def __init__(self, path=PROVED):
        self.library = ctypes.CDLL(path)
        self.handles = [ctypes.create_string_buffer(8) for _ in range(3)]  # the last one is never opened
        self.trace = []

    def call(self, name, *given):
        """Makes a call. A word of it is a number with its type, the number of a handle, or a buffer. Returns its status."""
        words, rooms = [], []
        for one in given:
            if isinstance(one, Memory):
                rooms.append((one, ctypes.create_string_buffer(GUARD + one.old + GUARD, 2 * len(GUARD) + len(one.old))))
                words.append(ctypes.c_void_p(ctypes.addressof(rooms[-1][1]) + len(GUARD)))
            else:
                words.append(ctypes.byref(self.handles[one]) if isinstance(one, int) else TYPES[one[0]](one[1]))
        status = getattr(self.library, f"pp6600_{name}")(*words)
        for memory, room in rooms:
            memory.new = room.raw[len(GUARD):-len(GUARD)]
            assert room.raw == GUARD + memory.new + GUARD, f"{name} writes outside a buffer"
        self.trace.append((name, [one.written if isinstance(one, Memory) else one if isinstance(one, int) else (one[0], str(one[1]))
                                  for one in given], status, hashlib.sha1(b"".join(memory.new for memory, _ in rooms)).hexdigest()))
        return status

    def close(self):
        for handle in self.handles:
            self.library.pp6600_close(ctypes.byref(handle))


def size(number):
    return "size", number


def text_of(memory, count):
    """Returns the text that a call wrote into a buffer of so many bytes; what is behind it is as it was."""
    count = count.number()
    assert memory.new[count:] == memory.old[count:]
    return memory.new[:count]


def sorted_turn(turn):
    """Returns a turn with the origins of each part, and the control places, in the order of their places."""
    return turn._replace(own=sorted(turn.own), others=sorted(turn.others), control=sorted(turn.control))


# What is no condition: no such kind, place, count of places, processor or address; too many tests or alternatives.
NO_CONDITIONS = (
    *([Form(*one)] for one in ((7, 0), (2 ** 32 - 1, 0), (interface.INSIDE, PLACES), (interface.OUTSIDE, PLACES),
                               (interface.CHANGES, PLACES - 1, 2),
                               (interface.CHANGES, PLACES + 1), (interface.WRITES, 0, 2 ** 63), (interface.PERFORMS, 10),
                               (interface.PERFORMS, 0, 0o10000), (interface.WAITS, 10), (interface.WAITS, 2 ** 32 - 1))),
    [Form(interface.OR)] * 64, [Form(interface.INSIDE, 0)] * 9)


def last_write(model, first, count):
    """Returns the newest action of a session that wrote one of some places: how many are newer, and its origins; those of another
    action than a turn are not known, and its processor is 10. Returns None if there is none."""
    history, ahead, wanted = model.machine.history, model.machine.ahead, range(first, first + count)
    newer = next((newer for newer, record in enumerate(reversed(history)) if any(flat_place(place) in wanted for place in record)),
                 None)
    if newer is None or places.SLOT not in history[-1 - newer] or len(history[-1 - newer]) > MOST_TURN_LINKS:
        return None if newer is None else (newer, Origins(10, 0, 0, 0, []))
    model.back(newer + 1)
    kept = list(ahead)
    (turn,), _ = model.origins(1)
    model.back(1)
    ahead[:] = kept
    model.forward(newer + 1)
    return newer, turn._replace(control=())


class Sequence:
    """A random sequence of calls, which follows from its seed."""

    def __init__(self, native, seed):
        self.native, self.choose = native, random.Random(seed)
        self.models, self.seed = [None] * 3, seed
        self.actions = [(self.open, 3), (self.answer, 6), (self.numbers, 3), (self.counts, 2), (self.turns, 5), (self.again, 4),
                        (self.looks, 3), (self.columns, 3), (self.origins, 3), (self.next_origins, 2), (self.until, 4),
                        (self.back_until, 3), (self.last_write, 3), (self.back, 3), (self.forward, 2), (self.close, 1),
                        (self.about, 1), (self.assembler, 1), (self.cells, 1)]

    def run(self, calls=30):
        for handle in (0, 1):
            self.open(handle)
            self.answer(handle, self.script())
        for _ in range(calls):
            action, = self.choose.choices([one for one, _ in self.actions], [weight for _, weight in self.actions])
            handle = self.choose.choices(range(3), (10, 10, 1))[0]
            others = {other: self.machine(other) for other in range(2) if other != handle and self.choose.random() < .2}
            action(handle)
            assert all(self.machine(other) == before for other, before in others.items()), "another session changed"

    def outs(self, *sizes):
        return [Memory.filled(one) for one in sizes]

    def room(self, exact):
        """Returns room for a text of so many bytes, or for none, one, or one too few."""
        return self.choose.choice((0, 1, max(exact - 1, 0), exact, exact + 1, exact + 70))

    def machine(self, handle):
        """Returns all numbers of a session's machine; None if it is closed."""
        if not self.models[handle]:
            return None
        into = (ctypes.c_uint64 * PLACES)()
        assert self.native.library.pp6600_numbers(ctypes.byref(self.native.handles[handle]), 0, into,
                                                  ctypes.c_size_t(PLACES)) == DONE
        return array("Q", bytes(into))

    def check_machine(self, handle):
        """Compares all numbers of a machine with those of the model, which has no watches among them."""
        found, model = self.machine(handle), self.models[handle]
        assert found[:interface.WATCHES] == array("Q", model.numbers(0, interface.WATCHES))
        assert found[interface.CENTRAL:] == array("Q", model.numbers(interface.CENTRAL, CENTRAL))

    def made(self, handle, name, *given, is_wrong=False, wrong=REFUSED):
        """Makes a call of a session. Returns its status; None if the handle has no session, or what is given is wrong. Then the
        call says so, and changes nothing."""
        status = self.native.call(name, handle, *given)
        if self.models[handle] and not is_wrong:
            assert status != CLOSED
            return status
        assert status == (wrong if self.models[handle] else CLOSED) and all(one.is_same for one in given if isinstance(one, Memory))
        return None

    # ---- the calls, each with what is to be of it

    def open(self, handle):
        if handle == 2:
            return
        wrong = self.choose.random() < .4 and self.choose.choice(("history", "central", "reader", "same", "deck"))
        history = self.choose.choice((0, 10001, 2 ** 32 - 1)) if wrong == "history" else self.choose.choice((1, 5, 200))
        central = self.choose.choice((0, 32767, 2 ** 32 - 1)) if wrong == "central" else CENTRAL
        reader, deck, line = 10, *FILES[0]
        if wrong == "deck":
            deck, line = self.choose.choice(FILES[1:])
        reader = self.choose.choice((12, 255)) if wrong == "reader" else 11 if wrong == "same" else reader
        lines = {"history": "BAD ARGUMENTS", "central": "BAD ARGUMENTS", "reader": "BAD CHANNEL", "same": "SAME CHANNEL"}
        line = lines.get(wrong, line)
        wanted = f"pp6600: {line}".encode()
        text, count, exits = self.outs(self.room(len(wanted)), 8, 4)
        cards = Memory(deck)
        status = self.native.call("open", ("u32", history), ("u32", central), ("u8", reader), ("u8", 11), cards, size(len(deck)),
                                  Memory(b""), size(0), handle, text, size(len(text.old)), count, exits)
        if self.models[handle] or not wrong:
            assert status == (OPEN if self.models[handle]
                              else DONE) and text.is_same and count.is_same and exits.is_same and cards.is_same
            self.models[handle] = (self.models[handle] or PlainEngine(
                ["--history", f"{history}", "--central", "32", "--reader", "12", "--printer", "13"]))
        else:
            assert (status, exits.number(), text_of(text, count)) == (REFUSED, 2, wanted[:len(text.old)])

    def script(self):
        profile = self.choose.choice((ALL, BUSY, LOOPS, WATCHING))
        return "\n".join(Maker(f"calls {self.choose.random()}", profile).script()[:40]).encode("latin-1")

    def answer(self, handle, typed=None):
        model = self.models[handle]
        lines = (typed if typed is not None else self.choose.choice(
            (b"", b"DUMP PP 0\n", b"DUMP CR\nSTEP\n", b"\n* a note\n\nSTEP 3", b"junk\nSTEP\n", self.script())))
        room = self.choose.choice((0, 1, 38, 47, 48, 95, 96, 200, 4000)) if typed is None else 1 << 16
        into, taken, count, made, refused = self.outs(room, 8, 8, 4, 4)
        status = self.made(handle, "answer", Memory(lines), size(len(lines)), into, size(room), taken, count, made, refused)
        if status is None:
            return
        done, rest = lines[:taken.number()], lines[taken.number():]
        assert not rest or not done or done.endswith(b"\n")
        answers = model.answers(done.decode("latin-1"))
        assert into.new[:count.number()] == "".join(f"{line}\n" for line in answers).encode()
        assert (made.number(), refused.number()) == (len(done.splitlines()) if b"\r" not in done
                                                     else done.count(b"\n") + (not done.endswith(b"\n")),
                                                     sum(line.startswith("ERR") for line in answers))
        assert status == (ROOM if rest else DONE), status
        left = room - count.number()
        if rest:
            line = rest.split(b"\n")[0]
            needs = (len("".join(f"{one}\n" for one in model.answers(line.decode("latin-1"))))
                     if line.upper().strip().startswith(b"DUMP") else ANY_LINE)
            assert left < needs

    def numbers(self, handle):
        first = self.choose.choice(
            (0, 40960, interface.SLOT, PLACES - 1, PLACES, PLACES + 1, 2 ** 32 - 1, self.choose.randrange(PLACES)))
        count = self.choose.choice(
            (0, 1, 40, max(PLACES - first, 0), max(PLACES - first, 0) + 1, 2 ** 32, 2 ** 61, 2 ** 63, 2 ** 64 - 1))
        count = count if count <= 40 or count > PLACES - first else 40
        into, = self.outs(8 * min(count, 64))
        status = self.made(handle, "numbers", ("u32", first), into, size(count), is_wrong=first + count > PLACES)
        assert status in (None, DONE)
        for place, number in enumerate(into.words("Q") if status == DONE else (), first):
            assert interface.WATCHES <= place < interface.CENTRAL or number == self.models[handle].numbers(place, 1)[0]

    def counts(self, handle):
        outs = self.outs(4, 4, 4, 4)
        status = self.made(handle, "counts", *outs)
        assert status is None or status == DONE and [out.number() for out in outs] == list(self.models[handle].counts())

    def recording(self, handle, name, most, **wrong):
        """Makes a call that records actions. Returns the buffers, the status, and how many actions there is room for at most."""
        made_room = self.choose.choice((0, 1, 5, 30))
        olds_room = self.choose.choice((0, 75, 76, 77, 300))
        made, olds, actions, used = self.outs(8 * made_room, 16 * olds_room, 8, 8)
        status = self.made(handle, name, ("u32", most), made, size(made_room), olds, size(olds_room), actions, used, **wrong)
        return made, olds, actions, used, status, made_room, olds_room

    def turns(self, handle):
        most, before, model = self.choose.choice((0, 1, 3, 30, 2 ** 32 - 1)), self.machine(handle), self.models[handle]
        made, olds, actions, used, status, made_room, olds_room = self.recording(handle, "turns", most)
        if status is None:
            return
        wanted, processors, filled, is_watched = [], [], 0, False
        while len(wanted) < min(most, made_room) and olds_room - filled >= MOST_OLDS and not is_watched:
            processors.append(model.numbers(interface.SLOT, 1)[0])
            turn = model.records(1)
            wanted.append(dict(zip(turn.places, turn.numbers)))
            filled, is_watched = filled + self.count_of(made, len(wanted)), turn.is_watched
        assert status == (WATCHED if is_watched else ROOM if len(wanted) < most else DONE)
        assert list(made.words("I")[:2 * len(wanted):2]) == processors
        found = self.check_records(handle, before, (made, olds, actions, used), len(wanted))
        for old, olds_of_turn in zip(found, wanted):
            assert dict(reversed(old)).items() <= olds_of_turn.items()  # the model also has places that stay as they are

    def origins(self, handle):
        most, model = self.choose.choice((0, 1, 3, 30, 2 ** 32 - 1)), self.models[handle]
        rooms = (self.choose.choice((0, 1, 5, 30)), self.choose.choice((0, 43, 44, 45, 300)),
                 self.choose.choice((0, 75, 76, 77, 300)))
        made, links, olds, turns, linked, used = self.outs(*(each * room for each, room in zip((16, 24, 16), rooms)), 8, 8, 8)
        status = self.made(handle, "origins", ("u32", most), made, size(rooms[0]), links, size(rooms[1]), olds, size(rooms[2]),
                           turns, linked, used)
        if status is None:
            return
        wanted, filled, pairs, is_watched = [], 0, 0, False
        while (len(wanted) < min(most, rooms[0]) and rooms[1] - filled >= MOST_TURN_LINKS and rooms[2] - pairs >= MOST_OLDS
               and not is_watched):
            (turn,), records = model.origins(1)
            wanted.append(turn._replace(control=()))  # which the call does not write
            one = Made.from_buffer_copy(made.new, 16 * len(wanted) - 16)
            filled, pairs, is_watched = filled + one.links, pairs + one.olds, records.is_watched
        assert status == (WATCHED if is_watched else ROOM if len(wanted) < most else DONE)
        assert (turns.number(), linked.number(), used.number()) == (len(wanted), filled, pairs)
        found = turns_of([Made.from_buffer_copy(made.new, 16 * at) for at in range(len(wanted))], links.new[:24 * filled])
        assert [*map(sorted_turn, found)] == [*map(sorted_turn, wanted)]
        self.check_machine(handle)

    def next_origins(self, handle):
        rooms = self.choose.choice((0, 32, 33, 100)), self.choose.choice((0, 6, 7, 8))
        turn, links, count, control, control_count = self.outs(16, 24 * rooms[0], 8, 8 * rooms[1], 8)
        status = self.made(handle, "next_origins", turn, links, size(rooms[0]), count, control, size(rooms[1]), control_count,
                           is_wrong=rooms[0] < MOST_LINKS or rooms[1] < MOST_CONTROL, wrong=ROOM)
        if status is None:
            return
        found, = turns_of([Made.from_buffer_copy(turn.new)], links.new[:24 * count.number()])
        places_of_control = list(control.words("Q")[:control_count.number()])
        assert status == DONE
        assert sorted_turn(found._replace(control=places_of_control)) == sorted_turn(self.models[handle].next_origins())
        self.check_machine(handle)

    @staticmethod
    def count_of(made, actions):
        return made.words("I")[2 * actions - 1]

    def check_records(self, handle, before, outs, actions):
        """Puts back what so many actions overwrote, the last one first. Returns it."""
        made, olds, made_count, used = outs
        assert made_count.number() == actions
        pairs, at, found = olds.words("Q"), 0, []
        for count in made.words("I")[1:2 * actions:2]:
            found.append(list(zip(pairs[2 * at:2 * (at + count):2], pairs[2 * at + 1:2 * (at + count):2])))
            at += count
        assert at == used.number()
        now = self.machine(handle)
        for place, number in reversed([pair for old in found for pair in old]):
            now[place] = number
        assert now == before, "the numbers put back are another machine"
        self.check_machine(handle)
        return found

    def again(self, handle):
        model, before = self.models[handle], self.machine(handle)
        ahead = model.counts().ahead if model else 0
        most = self.choose.choice((0, 1, ahead, ahead, ahead + 1, 2 ** 32 - 1))
        made, olds, actions, used, status, made_room, olds_room = self.recording(handle, "again", most, is_wrong=most > ahead)
        if status is None:
            return
        processors, filled = [], 0
        while len(processors) < min(most, made_room) and olds_room - filled >= MOST_OLDS:
            slot = model.numbers(interface.SLOT, 1)[0]
            model.forward(1)
            processors.append(slot if self.is_turn(model) else 10)
            filled += self.count_of(made, len(processors))
        assert status == (ROOM if len(processors) < most else DONE)
        assert list(made.words("I")[:2 * len(processors):2]) == processors
        self.check_records(handle, before, (made, olds, actions, used), len(processors))

    @staticmethod
    def is_turn(model):
        """Returns whether the newest action is a turn: it alone changes the slot, but for a dead start, which sets the first cells
        too."""
        newest = model.machine.history[-1]
        return places.SLOT in newest and not all(places.P + processor in newest for processor in range(10))

    def looks(self, handle):
        chosen = self.choose.choice(([], [0] * 17, [PLACES], [0, 2 ** 32 - 1], [40960, 40970], [interface.SLOT],
                                     [self.choose.randrange(40960) for _ in range(16)]))
        most, room = self.choose.choice((0, 1, 3, 30)), self.choose.choice((0, 1, max(len(chosen) - 1, 0), 3 * len(chosen), 100))
        given, into, turns = Memory(array("I", chosen).tobytes()), *self.outs(8 * room, 8)
        status = self.made(handle, "looks", ("u32", most), given, size(len(chosen)), into, size(room), turns,
                           is_wrong=not 1 <= len(chosen) <= 16 or max(chosen) >= PLACES)
        if status is None:
            return
        model, rows, is_watched = self.models[handle], [], False
        while len(rows) < most and (len(rows) + 1) * len(chosen) <= room and not is_watched:
            is_watched = model.records(1).is_watched
            rows.append([model.numbers(place, 1)[0] for place in chosen])
        assert status == (WATCHED if is_watched else ROOM if len(rows) < most else DONE)
        assert (turns.number() == len(rows) and list(into.words("Q")[:len(rows) * len(chosen)]) ==
                [number for row in rows for number in row])
        self.check_machine(handle)

    def columns(self, handle):
        most, room = self.choose.choice((0, 1, 3, 30, 2 ** 32 - 1)), self.choose.choice((0, 1, 5, 40))
        rows, turns = self.outs(16 * room, 8)
        status = self.made(handle, "columns", ("u32", most), rows, size(room), turns)
        if status is None:
            return
        model, wanted, is_watched = self.models[handle], [], False
        while len(wanted) < min(most, room) and not is_watched:
            slot, = model.numbers(interface.SLOT, 1)
            p, a, q, phase = (model.numbers(first + slot, 1)[0]
                              for first in (interface.P, interface.A, interface.Q, interface.PHASE))
            cells = model.numbers(4096 * slot, 4096)
            wanted.append((slot, p, a, q, phase, cells[p], cells[(p + 1) % 4096]))
            is_watched = model.records(1).is_watched
        assert status == (WATCHED if is_watched else ROOM if len(wanted) < most else DONE)
        assert turns.number() == len(wanted) and [*struct.iter_unpack("<HHIHHHH", rows.new[:16 * len(wanted)])] == wanted
        self.check_machine(handle)

    def forms(self, handle):
        """Returns forms of a condition, and whether they are one: of few tests, some of numbers that the machine has."""
        model, choose, found = self.models[handle], self.choose, []
        for _ in range(choose.choice((0, 1, 1, 2, 3))):
            kind, place = choose.randrange(7), choose.choice((40970, 40980, interface.SLOT, choose.randrange(40960)))
            number = model.numbers(place, 1)[0] if model else 0
            if kind in (interface.CHANGES, interface.WRITES):
                found.append(Form(kind, place, choose.randrange(20)))
            elif kind in (interface.PERFORMS, interface.WAITS):
                found.append(Form(kind, choose.randrange(10), choose.randrange(0o200)))
            else:
                found.append(Form(kind, place, number, number + choose.randrange(2)))
        many = [*[Form(interface.OR)] * (63 - sum(one.kind == interface.OR for one in found)), *[Form(interface.INSIDE, 0, 1)] * 8]
        wrong = choose.choice(NO_CONDITIONS) if choose.random() < .2 else []
        return found + wrong + many * (not wrong and choose.random() < .1), not wrong

    def until(self, handle):
        self.search(handle, "until", self.choose.choice((0, 1, 3, 30, 200)))

    def back_until(self, handle):
        self.search(handle, "back_until")

    def search(self, handle, name, *most):
        forms, is_one = self.forms(handle)
        given, (out,) = Memory(b"".join(struct.pack("<IIQQ", *form) for form in forms)), self.outs(4)
        status = self.made(handle, name, given, size(len(forms)), *(("u32", one) for one in most), out, is_wrong=not is_one)
        if not self.models[handle]:
            return
        if status is not None and most:
            made, found = self.models[handle].until(forms, *most)
            assert status == (DONE if found else NOT_FOUND) and out.number() == made
        elif status is not None:
            undone = self.models[handle].back_until(forms)
            assert status == (DONE if undone else NOT_FOUND) and (out.number() == undone if undone else out.is_same)
        self.check_machine(handle)

    def last_write(self, handle):
        choose = self.choose
        first = choose.choice((0, interface.SLOT, PLACES - 1, PLACES, PLACES + 1, 2 ** 32 - 1,
                               choose.randrange(interface.A, interface.CARD)))
        count = (choose.choice((0, 1, 1, 5, interface.A, 2 ** 32 - 1)) if first < interface.CARD
                 else choose.choice((0, 1, 2, 2 ** 32 - 1)))
        room = choose.choice((0, 43, 44, 45))
        newer, turn, links = outs = self.outs(4, 16, 24 * room)
        status = self.made(handle, "last_write", ("u32", first), ("u32", count), newer, turn, links, size(room))
        if status is None:
            return
        wanted = last_write(self.models[handle], first, count) if first + count <= PLACES and room >= MOST_TURN_LINKS else None
        assert status == (DONE if wanted else REFUSED if first + count > PLACES else ROOM if room < MOST_TURN_LINKS else NOT_FOUND)
        if wanted:
            found = next(turns_of([Made.from_buffer_copy(turn.new)], links.new))
            assert (newer.number(), sorted_turn(found)) == (wanted[0], sorted_turn(wanted[1]))
        assert wanted or all(one.is_same for one in outs)
        self.check_machine(handle)

    def back(self, handle):
        self.move(handle, "back", 0)

    def forward(self, handle):
        self.move(handle, "forward", 1)

    def move(self, handle, name, which):
        model = self.models[handle]
        enough = model.counts()[which] if model else 0
        count = self.choose.choice((*BOUNDS, enough, enough, enough + 1, enough // 2))
        before = self.machine(handle)
        status = self.made(handle, name, ("u32", count), is_wrong=count > enough)
        if status is None:
            assert self.machine(handle) == before
        else:
            assert status == DONE
            getattr(model, name)(count)
            self.check_machine(handle)

    def close(self, handle):
        assert self.made(handle, "close") in (None, DONE)
        self.models[handle] = None

    def about(self, _):
        wanted = read("VERSION").split(".")
        assert self.native.call("version") == sum(int(number) * 1000 ** place for number, place in zip(wanted, (2, 1, 0)))
        status, (count,) = self.choose.choice((*range(10), 2 ** 32 - 1)), self.outs(8)
        into, = self.outs(self.choose.choice((0, 1, 4, 32)))
        found = self.native.call("text_of_status", ("u32", status), into, size(len(into.old)), count)
        if status > NOT_FOUND:
            assert found == REFUSED and into.is_same and count.is_same
        else:
            self.check_text(found, into, count, None)
        self.instruction()

    def instruction(self):
        code = self.choose.choice((*range(64), 64, 2 ** 32 - 1))
        into, count, words, form = self.outs(self.choose.choice((0, 2, 3, 8)), 8, 4, 4)
        status = self.native.call("instruction", ("u32", code), into, size(len(into.old)), count, words, form)
        if code > 0o77:
            assert status == REFUSED and all(one.is_same for one in (into, count, words, form))
            return
        name, wanted, _ = CODES[code]
        self.check_text(status, into, count, name[3:].encode())
        assert (words.number(), form.number() in (3, 4, 5)) == (wanted, wanted == 2)

    @staticmethod
    def check_text(status, into, count, wanted):
        """Checks that all of a text is written, or if there is no room for it nothing. Returns what was written."""
        if count.number() > len(into.old):
            assert status == ROOM and into.is_same
            return None
        assert status == DONE
        text = text_of(into, count)
        assert wanted is None or text == wanted
        return text

    def text(self, name, given, after=()):
        """Makes a call that writes a text, with room for all of it and then with another one. Returns the status of the first."""
        into, count = self.outs(4096, 8)
        status = self.native.call(name, *given, into, size(4096), count, *after)
        if status != DONE:
            assert status == REFUSED and into.is_same and count.is_same
            return status
        wanted = text_of(into, count)
        small, count = self.outs(self.room(len(wanted)), 8)
        found = self.native.call(name, *given, small, size(len(small.old)), count, *self.outs(*[8] * len(after)))
        assert count.number() == len(wanted)
        self.check_text(found, small, count, wanted)
        return DONE

    def assembler(self, _):
        source, (faults,), (messages,) = self.choose.choice(SOURCES + FAULTY), self.outs(8), self.outs(8)
        given = Memory(source), size(len(source))
        form, processor = self.choose.choice((*range(8), 2 ** 32 - 1)), self.choose.choice((0, 9, 10, 2 ** 32 - 1))
        assert self.text("assemble", (*given, ("u32", form)), (faults,)) == (DONE if form <= 6 else REFUSED)
        assert faults.is_same if form > 6 else (faults.number() > 0) == (source in FAULTY)
        status = self.text("load_lines", (*given, ("u32", processor)), (messages,))
        assert status == (REFUSED if processor > 9 or source in FAULTY else DONE)
        assert messages.is_same if processor > 9 else form > 6 or messages.number() == faults.number()

    def cells(self, _):
        addresses = self.choose.sample(range(0o10000), self.choose.choice((0, 1, 5, 30)))
        wrong = self.choose.random() < .5 and addresses and self.choose.choice(("word", "address", "twice"))
        cells = [(address, self.choose.randrange(0o10000)) for address in addresses]
        if wrong:
            cells.append({"word": (0o7777 - addresses[0], 0o10000), "address": (0o177777, 0), "twice": (addresses[0], 5)}[wrong])
        given, entries = (Memory(b"".join(struct.pack("<HHI", *cell, 0) for cell in cells)),
                          Memory(struct.pack("<2H", 0o100, 0o177777)))
        status = self.text("disassemble", (given, size(len(cells)), entries, size(2)))
        assert status == (REFUSED if wrong else DONE)


# ---- what these tests are to see

def next_number(memory):
    """Makes the number in an out-parameter one more."""
    memory.new = (memory.number() + 1).to_bytes(len(memory.new), "little")


def memories(given):
    return [one for one in given if isinstance(one, Memory) and one.old]


def last_byte(memory):
    memory.new = memory.new[:-1] + bytes([memory.new[-1] ^ 1])


# What is wrong with a call: a change of what it is given, and one of what it came to, of which the result is the status.
SLIPS = {
    "a text without room is written": ("", None, lambda native, given, status: DONE if status == ROOM else status),
    "an answer has a byte more": ("answer", None, lambda native, given, status: next_number(memories(given)[-3]) or status),
    "a closed handle's call writes": ("", None, lambda native, given, status: status == CLOSED
                                      and [*map(next_number, memories(given)[-1:])] and status or status),
    "what is rejected writes": ("", None, lambda native, given, status: status == REFUSED
                                and [*map(next_number, memories(given)[-1:])] and status or status),
    "a record has another number": ("turns", None, lambda native, given, status: memories(given)[-1].number() in range(1, 300)
                                    and change_old(given) or status),
    "a turn is left out": ("turns", lambda given: [given[0], less(given[1]), *given[2:]], None),
    "a row has another word": ("columns", None, lambda native, given, status: memories(given)[-1].number() in range(1, 41)
                               and last_word(given) or status),
    "a text has more behind it": ("disassemble", None, lambda native, given, status: last_byte(memories(given)[-2]) or status),
    "another session changes": ("answer", None, lambda native, given, status: change_other(native, given) or status),
    "back goes one action less": ("back", lambda given: [given[0], less(given[1])], None),
    "numbers are of the next place": (
    "numbers", lambda given: [given[0], ("u32", min(given[1][1] + 1, PLACES - 1)), *given[2:]], None),
    "a number is written behind the buffer": (
    "numbers", lambda given: [*given[:-1], ("size", given[-1][1] + (0 < given[-1][1] < 64))], None),
    "counts are those of before": ("counts", None, lambda native, given, status: next_number(memories(given)[1]) or status),
}


def less(number):
    return number[0], max(number[1] - 1, 0)


def change_old(given):
    """Changes the last number that turns overwrote."""
    olds, used = given[4], given[-1].number()
    olds.new = olds.new[:16 * used - 8] + bytes(8) + olds.new[16 * used:] if any(olds.new[16 * used - 8:16 * used]) else \
        olds.new[:16 * used - 8] + bytes([1]) + olds.new[16 * used - 7:]


def last_word(given):
    """Changes a bit of the last row."""
    rows, end = given[2], 16 * given[-1].number()
    rows.new = rows.new[:end - 1] + bytes([rows.new[end - 1] ^ 1]) + rows.new[end:]


def change_other(native, given):
    """Performs a line in the other session."""
    line, room, outs = b"SET A 0 1234\n", ctypes.create_string_buffer(64), [ctypes.c_uint64() for _ in range(4)]
    native.library.pp6600_answer(ctypes.byref(native.handles[1 - given[0] % 2]), line, ctypes.c_size_t(len(line)), room,
                                 ctypes.c_size_t(64), *map(ctypes.byref, outs))


def slipping(name):
    """Returns calls of which some have this slip."""
    call, before, after = SLIPS[name]

    class Slipping(Native):
        def call(self, name, *given):
            if call not in ("", name):
                return super().call(name, *given)
            status = super().call(name, *(before(given) if before else given))
            return after(self, given, status) if after else status
    return Slipping


def trace_of(seed, native=Native):
    """Runs a sequence, and returns what its calls were given and came to."""
    made = native()
    try:
        Sequence(made, seed).run()
    finally:
        made.close()
    return made.trace


if __name__ == "__main__":
    for one in range(int(sys.argv[1]) if len(sys.argv) > 1 else 500):
        print(one, end="\r", flush=True)
        trace_of(one)
