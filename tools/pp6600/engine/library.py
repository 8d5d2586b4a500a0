"""The proved simulator as a library of C, called in this process by ctypes: `LibrarySession` has its calls. docs/LIBRARY.md and the
header, pp6600.h, say what each call does."""

from __future__ import annotations

import ctypes
import functools
import os
from array import array
from ctypes import byref, c_size_t, c_uint16, c_uint32, c_uint64
from typing import Any, Iterator, List, NamedTuple, Optional, Sequence, Tuple

from ..failure import Failure
from .arguments import OutOfRange, bytes_of, checked, counted, forms_of, path_of, places_of, text_of
from .choice import HOME, LIBRARY_HERE
from .choose import libraries_beside
from .interface import Columns, Counts, Form, Records, Rejection
from .origins import LINK_BYTES, Origins, origins_of

DONE, ROOM, WATCHED, CLOSED, OPEN, NO_MEMORY, REFUSED, LIMIT, NOT_FOUND = range(9)
MOST_OLDS = 76  # the most places that an action overwrites
PAIRS_OF_TURN = 6  # more than most turns overwrite
MOST_LINKS, LINKS_OF_TURN = 44, 8  # the most links of a turn, and more than most turns have
MOST_CONTROL = 7  # the most control places of a turn
LEAST_ROOM = 96  # bytes that the answer to a line that is no DUMP always fits in
TEXT_ROOM, ANSWER_ROOM = 112, 1 << 16  # bytes
NONE = object()  # that was given


class Refused(Rejection):
    """The program refuses the options or the files: its line, and its exit status."""


class Unloadable(Failure):
    """A file can't be loaded, or is not this library."""


class Answers(NamedTuple):
    """The text of the answers, how many lines were performed and rejected, and how many bytes were taken: all, up to the limits."""
    text: bytes
    lines: int
    refused: int
    taken: int


class Moment(NamedTuple):
    """A turn: its processor, and each place that it overwrote with its old number. The processor of another action is 10."""
    processor: int
    olds: List[Tuple[int, int]]


def moments_of(made: Sequence[int], records: Records) -> List[Moment]:
    """Returns the turns of a recording, one by one."""
    rest = iter(zip(records.places, records.numbers))
    return [Moment(processor, [next(rest) for _ in range(count)]) for processor, count in zip(made[::2], made[1::2])]


class Made(ctypes.Structure):
    """A turn with origins."""
    _fields_ = [("processor", c_uint16), ("address", c_uint16), ("word", c_uint16), ("kind", c_uint16),
                ("links", c_uint16), ("own", c_uint16), ("olds", c_uint32)]


def turns_of(made: Sequence[Any], links: bytes) -> Iterator[Origins]:
    """Yields turns with their origins."""
    at = 0
    for one in made:
        middle, end = at + LINK_BYTES * one.own, at + LINK_BYTES * one.links
        own, others = ([*origins_of(links[first:last])] for first, last in ((at, middle), (middle, end)))
        yield Origins(one.processor, one.address, one.word, one.kind, own, others)
        at = end


class Handle(ctypes.Structure):
    _fields_ = [("at", ctypes.c_void_p)]


class FormOfC(ctypes.Structure):
    """A form as C has it."""

    _fields_ = [("kind", c_uint32), ("place", c_uint32), ("first", c_uint64), ("last", c_uint64)]


RECORDED = ("turns", "again")  # the calls that record actions
CALLS = ("open", "answer", "numbers", "counts", "turns", "again", "looks", "back", "forward", "close")
# which an older library may lack
LATER_CALLS = ("origins", "next_origins", "until", "back_until", "last_write", "columns")


def load(path: Optional[str] = None) -> Any:
    """Loads the library from this path, or from $PP6600_LIBRARY, or from where the tools are: a checkout, an installation, a
    package."""
    path = (path_of("path", path) or os.environ.get("PP6600_LIBRARY")
            or next(iter(libraries_beside(os.path.join(HOME, "pp6600"))), None))
    return loaded(path or os.path.join(HOME, "dist", LIBRARY_HERE or "libpp6600.so"))


def call_of(library: Any, name: str) -> Any:
    """Returns a call of the library."""
    try:
        call = getattr(library, f"pp6600_{name}")
    except AttributeError as error:
        raise Unloadable(f"the library of the simulator can't be loaded: {error}") from error
    call.restype = c_uint32
    return call


@functools.lru_cache(maxsize=None)
def loaded(path: str) -> Any:
    """Returns the library of a file."""
    try:
        library = ctypes.CDLL(path)
    except OSError as error:
        raise Unloadable(f"the library of the simulator can't be loaded: {error}") from error
    for name in CALLS:
        call_of(library, name)
    return library


def version(path: Optional[str] = None) -> Tuple[int, int, int]:
    """Returns the version of the library: its major, minor and patch number."""
    number = call_of(load(path), "version")()
    return number // 1000000, number // 1000 % 1000, number % 1000


def text_of_status(status: int, path: Optional[str] = None) -> str:
    """Returns what the library says of a status. Fails if there is no such status."""
    text, count = ctypes.create_string_buffer(TEXT_ROOM), c_size_t()
    call = call_of(load(path), "text_of_status")
    if call(*checked("text_of_status", status), text, c_size_t(len(text)), byref(count)) != DONE:
        raise Failure(f"there is no status {status}")
    return text.raw[:count.value].decode("ascii")


def instruction(code: int, path: Optional[str] = None) -> Tuple[str, int, int]:
    """Returns the name of an instruction, how many words it has, and the number of its form, what it has as operand."""
    text, count, words, form = ctypes.create_string_buffer(TEXT_ROOM), c_size_t(), c_uint32(), c_uint32()
    outs = byref(count), byref(words), byref(form)
    if call_of(load(path), "instruction")(*checked("instruction", code), text, c_size_t(len(text)), *outs) != DONE:
        raise Failure(f"there is no code {code}")
    return text.raw[:count.value].decode("ascii"), words.value, form.value


def room_for(kind: Any, count: int) -> Any:
    """Returns an array of C with so many elements. Fails if there is no memory for it."""
    try:
        return (kind * count)()
    except (MemoryError, OverflowError):
        raise Failure(f"there is no memory for {count} numbers") from None


class LibrarySession:
    """A session: a machine with its undo history. It is used in a `with` block, or closed.

    What is given and returned is plain numbers, so write 0o106 for an octal one; lines and their answers have octal digits.
    `history` is 1 to 10000 actions, `central` 32768, 65536 or 131072 words (decimal), `reader` and `printer` are channels from 0 to
    0o13, and `deck` and `panel` the bytes of their files. What can't be done raises Failure, and an argument of a wrong type
    TypeError; then nothing has changed. A session that has fewer actions than `back`, `forward` or `again` are asked for is no
    failure: they return False or None."""

    def __init__(self, history: int = 10000, central: int = 131072, reader: int = 0o12, printer: int = 0o13, deck: bytes = b"",
                 panel: bytes = b"", path: Optional[str] = None) -> None:
        self._handle = Handle()
        files = [part for data in (bytes_of("deck", deck), bytes_of("panel", panel)) for part in (data, c_size_t(len(data)))]
        library, self._at = load(path), byref(self._handle)
        self.calls = {name: functools.partial(getattr(library, f"pp6600_{name}"), self._at) for name in (*CALLS, *LATER_CALLS)
                      if hasattr(library, f"pp6600_{name}")}
        self.text: Any = ctypes.create_string_buffer(ANSWER_ROOM)  # kept from call to call, with what is said of an answer
        self.answered = c_size_t(), c_size_t(), c_uint32(), c_uint32()
        self.counted = tuple(map(byref, self.answered))
        self.room = -1, -1  # for how many turns and pairs there is room in a recording
        self.rooms: Any = None
        self.places: Tuple[int, ...] = ()  # the places of the latest looks, for how many turns there is room, and what is passed
        self.most = -1
        self.passed: Sequence[Any] = ()
        self.size, self.answering = c_size_t(), (byref(self.text), c_size_t.from_param(ANSWER_ROOM), *self.counted)
        self.searched: Tuple[Tuple[int, ...], ...] = ()  # the latest condition, and as C has it
        self.forms: Any = (FormOfC * 0)(), c_size_t()
        self.given: Any = NONE  # the latest places and condition, as they were given, if they can't change
        self.condition: Any = NONE
        text, count, status = ctypes.create_string_buffer(TEXT_ROOM), c_size_t(), c_uint32()
        try:
            machine = checked("open", history, central, reader, printer)
        except Failure:
            raise Refused("pp6600: BAD ARGUMENTS", 2) from None
        opened = library.pp6600_open(*machine, *files, self._at, text, c_size_t(len(text)), byref(count), byref(status))
        if opened != DONE:
            raise Refused(text.raw[:count.value].decode("ascii"), status.value)

    def _call(self, name: str, *arguments: object) -> int:
        if name not in self.calls:
            raise Failure(f"the library is too old: it has no pp6600_{name}")
        status: int = self.calls[name](*arguments)
        if status == CLOSED:
            raise Failure("the session is closed")
        return status

    def __enter__(self) -> LibrarySession:
        return self

    def __exit__(self, *_: object) -> None:
        self.close()

    def close(self) -> None:
        """Closes the session. To close it again does nothing."""
        if self._handle.at:
            self.calls["close"]()

    __del__ = close

    def answer(self, typed: bytes, room: int = 4096) -> Answers:
        """Performs lines, and returns their answers. It asks with more room as long as an answer does not fit. At the limits of a
        call it returns what was performed, and so it does where there is no memory for an answer; it fails if that is the first
        line."""
        typed, room = bytes_of("typed", typed), max(counted("room", room), 1)
        texts, lines, refused, taken, size, status = [], 0, 0, 0, room, ROOM
        while status == ROOM:
            try:
                into = self.text if size <= len(self.text) else ctypes.create_string_buffer(size)
            except (MemoryError, OverflowError):
                break
            left = typed[taken:]
            status = self._call("answer", left, c_size_t(len(left)), into, c_size_t(size), *self.counted)
            more, count, performed, rejected = (number.value for number in self.answered)
            texts.append(into[:count])
            lines, refused, taken = lines + performed, refused + rejected, taken + more
            size = max(2 * size, LEAST_ROOM) if more == 0 else room
        if status != DONE and not taken:
            raise Failure("a line is too long for the library" if status == LIMIT else "there is no memory for the answer")
        return Answers(b"".join(texts), lines, refused, taken)

    def answers(self, text: str) -> List[str]:
        """Performs lines, also beyond the limits of a call. Returns the lines of their answers."""
        typed, found = text_of("text", text).encode("latin-1"), b""
        while typed:
            answers = self.answer(typed, ANSWER_ROOM)
            typed, found = typed[answers.taken:], found + answers.text
        return found.decode("ascii").splitlines()

    def perform(self, typed: bytes) -> None:
        """Performs lines of actions. Fails if one is rejected."""
        typed = bytes_of("typed", typed)
        self.size.value = len(typed)
        if self._call("answer", typed, self.size, *self.answering) != DONE or self.answered[3].value:
            raise Failure(f"the simulator refuses {typed.decode('latin-1')}")

    def numbers(self, first: int, count: int) -> List[int]:
        """Returns the numbers at consecutive places."""
        place, = checked("numbers", first)
        count = counted("count", count)
        into: ctypes.Array[c_uint64] = room_for(c_uint64, count)
        if self._call("numbers", place, into, c_size_t(count)) != DONE:
            raise Failure(f"the machine does not have the places {first} to {first + count - 1}")
        numbers: List[int] = into[:]
        return numbers

    def counts(self) -> Counts:
        """Counts the actions that the session keeps."""
        found = [c_uint32() for _ in range(4)]
        self._call("counts", *map(byref, found))
        return Counts(found[0].value, found[1].value, found[2].value, bool(found[3].value))

    def turns(self, most: int) -> Tuple[List[Moment], bool]:
        """Performs turns, up to the first that changes a watched number. Returns them, and whether the last one did."""
        _, made, records = self._recorded("turns", most, MOST_OLDS)
        return moments_of(made, records), records.is_watched

    def again(self, count: int) -> Optional[List[Moment]]:
        """Performs undone actions again, and returns them; None if there are too few, and then none is performed."""
        status, made, records = self._recorded("again", count, MOST_OLDS)
        return None if status == REFUSED else moments_of(made, records)

    def records(self, most: int, call: str = "turns") -> Records:
        """As `turns`, in as few as a usual room makes it, or by "again" as `again`. Returns what they overwrote."""
        status, _, records = self._recorded(call, most, MOST_OLDS if call == "again" else PAIRS_OF_TURN)
        if status == REFUSED:
            raise Failure("the machine has fewer actions ahead")
        return records

    def _recorded(self, call: str, most: int, pairs_of_turn: int) -> Tuple[int, Sequence[int], Records]:
        """Makes a call that records actions, with room for so many pairs for each. Returns its status; of each action the processor
        and the number of places, in turn; and what they overwrote."""
        if call not in RECORDED:
            raise OutOfRange(f"call: {call!r} is none of {', '.join(RECORDED)}")
        at_most, = checked(call, most)
        pairs, turns, used = pairs_of_turn * most + MOST_OLDS, c_size_t(), c_size_t()
        if self.room != (most, pairs):  # it is kept for the next call
            self.room, self.rooms = (most, pairs), (room_for(c_uint32, 2 * most), room_for(c_uint64, 2 * pairs))
        made, olds = self.rooms
        status = self._call(call, at_most, made, c_size_t(most), olds, c_size_t(pairs), byref(turns), byref(used))
        of_turns = array("I", memoryview(made).cast("B")[:8 * turns.value].tobytes())
        return status, of_turns, Records(of_turns[1::2], memoryview(olds).cast("B")[:16 * used.value].tobytes(), status == WATCHED)

    def origins(self, most: int) -> Tuple[List[Origins], Records]:
        """As `turns`, in as few as there is room for. Returns each with where the numbers that it wrote come from, and what they
        overwrote."""
        at_most, = checked("origins", most)
        pairs, links = PAIRS_OF_TURN * most + MOST_OLDS, LINKS_OF_TURN * most + MOST_LINKS
        made, of_links, olds = room_for(Made, most), room_for(ctypes.c_char, LINK_BYTES * links), room_for(c_uint64, 2 * pairs)
        turns, linked, used = c_size_t(), c_size_t(), c_size_t()
        status = self._call("origins", at_most, made, c_size_t(most), of_links, c_size_t(links), olds, c_size_t(pairs),
                            byref(turns), byref(linked), byref(used))
        turns_made = made[:turns.value]
        records = Records([one.olds for one in turns_made], memoryview(olds).cast("B")[:16 * used.value].tobytes(),
                          status == WATCHED)
        return list(turns_of(turns_made, of_links.raw[:LINK_BYTES * linked.value])), records

    def next_origins(self) -> Origins:
        """Returns the next turn, with where the numbers that its processor will write come from. No turn is made."""
        made, of_links, count = Made(), ctypes.create_string_buffer(LINK_BYTES * MOST_LINKS), c_size_t()
        control, places = (c_uint64 * MOST_CONTROL)(), c_size_t()
        self._call("next_origins", byref(made), of_links, c_size_t(MOST_LINKS), byref(count), control, c_size_t(MOST_CONTROL),
                   byref(places))
        return next(turns_of([made], of_links.raw[:LINK_BYTES * count.value]))._replace(control=control[:places.value])

    def last_write(self, first: int, count: int = 1) -> Optional[Tuple[int, Origins]]:
        """Returns the newest action that can be undone and wrote one of so many places: how many actions are newer, and it with
        where the numbers that it wrote come from; if it is no turn, its processor is 10. Returns None if there is none."""
        newer, made, of_links = c_uint32(), Made(), ctypes.create_string_buffer(LINK_BYTES * MOST_LINKS)
        status = self._call("last_write", *checked("last_write", first, count), byref(newer), byref(made), of_links,
                            c_size_t(MOST_LINKS))
        if status == REFUSED:
            raise Failure(f"the machine does not have the places {first} to {first + count - 1}")
        return (newer.value, next(turns_of([made], of_links.raw))) if status == DONE else None

    def looks(self, most: int, places: Sequence[int]) -> Tuple[List[List[int]], bool]:
        """Performs turns as `turns` does. Returns the numbers at the places after each, and whether the last changed a watched
        number."""
        numbers, is_watched = self.numbers_after(most, places)
        return [numbers[at:at + len(places)] for at in range(0, len(numbers), len(places))], is_watched

    def numbers_after(self, most: int, places: Sequence[int]) -> Tuple[List[int], bool]:
        """As `looks`, but the numbers are one after the other. What is passed for the same places is converted once."""
        at_most, = checked("looks", most)
        if places is not self.given or most > self.most:
            chosen = places_of(places)
            if most > self.most or self.places != chosen:
                self._make_room(most, chosen)
            self.given = places if type(places) is tuple else NONE
        status = self._call("looks", at_most, *self.passed)
        if status == REFUSED:
            raise Failure("looks are at 1 to 16 places that the machine has")
        return self.into[:self.answered[0].value * len(places)].tolist(), status == WATCHED

    def _make_room(self, most: int, places: Tuple[int, ...]) -> None:
        """Makes room for the numbers at places after so many turns."""
        chosen = [number.value for place in places for number in checked("place", place)]
        width, room = len(places), most * len(places)
        into = room_for(c_uint64, room)
        self.places, self.most, self.into = places, most, memoryview(into).cast("B").cast("Q")
        self.passed = (byref((c_uint32 * width)(*chosen)), c_size_t.from_param(width), byref(into), c_size_t.from_param(room),
                       self.counted[0])

    def columns(self, most: int) -> Tuple[Columns, bool]:
        """Performs turns as `turns` does. Returns what their processors were about to do, and whether the last changed a watched
        number."""
        at_most, = checked("columns", most)
        rows, turns = room_for(c_uint64, 2 * most), c_size_t()
        status = self._call("columns", at_most, rows, c_size_t(most), byref(turns))
        written = memoryview(rows).cast("B")[:16 * turns.value].tobytes()
        halves, words = array("H", written), array("I", written)
        return Columns(halves[::8], halves[1::8], words[1::4], *(halves[at::8] for at in range(4, 8))), status == WATCHED

    def until(self, condition: Sequence[Form], most: int) -> Tuple[int, bool]:
        """Performs turns, up to the first in which a condition comes to hold. Returns how many, and whether it does in the last
        one."""
        found = self._search("until", condition, *checked("until", most))
        return self.answered[2].value, found

    def back_until(self, condition: Sequence[Form]) -> int:
        """Goes back to the end of the last action before the newest in which a condition came to hold. Returns how many actions
        were undone; 0 if there is none."""
        return self.answered[2].value if self._search("back_until", condition) else 0

    def _search(self, call: str, condition: Sequence[Form], *most: object) -> bool:
        """Makes a call that searches. Returns whether it found something. The latest condition is converted once."""
        if condition is not self.condition:
            given = forms_of(condition)
            if self.searched != given:
                forms = [FormOfC(*(number.value for number in checked("form", *form))) for form in given]
                self.searched, self.forms = given, ((FormOfC * len(forms))(*forms), c_size_t(len(forms)))
            self.condition = condition if type(condition) is tuple and all(type(form) is Form for form in condition) else NONE
        status = self._call(call, *self.forms, *most, self.counted[2])
        if status == REFUSED:
            raise Failure("these are no tests of places that the machine has, or more than 64 alternatives, or more than 8 tests "
                          "in one")
        return status == DONE

    def back(self, count: int) -> bool:
        """Undoes actions. Returns whether there were enough; if not, none is undone."""
        return self._call("back", *checked("back", count)) == DONE

    def forward(self, count: int) -> bool:
        """Performs undone actions again. Returns whether there were enough; if not, none is performed."""
        return self._call("forward", *checked("forward", count)) == DONE
