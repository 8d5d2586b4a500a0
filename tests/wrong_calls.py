"""The one table of the calls of the classes for Python: each with arguments that are right, and for each argument those that are
wrong. A call with a wrong one is a TypeError, or a Failure for a number that is out of range, which names the argument, and changes
nothing. Everywhere 5 is of a wrong type."""

from pp6600.engine import library
from pp6600.engine.arguments import NUMBERS
from pp6600.engine.assembler import Assembler
from pp6600.engine.library import LibrarySession
from pp6600.failure import Failure

SOURCE = b"          LDN    5\n"
NO_NUMBERS = (1.0, 1.5, "1", b"1", None, [], (1,), {}, 1j, float("nan"), len, object(), {1})
COUNTS = (1.0, "1", None, [], (1,), {}, -1, 2 ** 63, 2 ** 64 + 1, object())
BYTES = ("text", 5, None, [1, 2], (49,), 1.5, {"a": 1}, object(), True)
TEXTS = (b"STEP\n", 5, None, ["STEP"], object())
FORM = ("condition", "a form", "kind", "place", "first", "last")


def outside(bits):
    """Returns numbers that so many bits do not hold. C takes their lowest bits: 2**32 + 1 is one action, and 2**32 + 40970 is P of
    processor 0."""
    return -1, 2 ** bits, 2 ** bits + 1, 2 ** bits + 40970, 2 ** 64, 2 ** 64 + 1


def number(call, name, right):
    """Returns a number that a call takes, with what is none of its bits."""
    return name, right, (*NO_NUMBERS, *outside(NUMBERS[call][name]))


def places():
    """Returns what is no list of places."""
    return *([one] for one in outside(32)), (place for place in (40960, 40961)), {40960}, "12", b"12", bytearray(2), 5, None, {
        1: 2}, [None], ["1"], [1.0], [-1], [
        2 ** 32], \
        map(int, "1"), [[1]], [40960, 40960.0], iter([1]), object()


def conditions():
    """Returns what is no condition."""
    forms = [[(*[0] * at, one, *[0] * (3 - at))] for at, bits in enumerate(NUMBERS["form"].values()) for one in outside(bits)]
    return *forms, [(0,)], [(0, 1, 2)], [(0,) * 5], [()], [0], 5, None, "form", ["form"], [b"1234"], [(0, 0, 0, 1.5)], [
        (0, 0, 0, 2 ** 64)], \
        [(-1, 0, 0, 0)], [(None,) * 4], [(0, 0, 0, 0), 5], {(0, 0, 0, 0)}, (form for form in [(0, 0, 0, 0)]), {}, [
        {0: 1, 1: 2, 2: 3, 3: 4}]


def of_session():
    """Returns the arguments of each call of a session: for each its name, one that is right, and those that are wrong."""
    most, looked_at, count = number("turns", "most", 1), ("places", [40960], places()), ("count", 1, COUNTS)
    condition = (FORM, [(2, 0, 1, 0)], conditions())
    return {
        "answer": (("typed", b"STEP 1\n", BYTES), ("room", 100, COUNTS)), "answers": (("text", "STEP 1\n", TEXTS),),
        "perform": (("typed", b"STEP 1\n", BYTES),), "numbers": (number("numbers", "first", 0), count), "turns": (most,),
        "again": (number("again", "count", 1),), "origins": (number("origins", "most", 1),),
        "records": (most, ("call", "turns", ("back", "", None, 6, ["turns"], b"turns"))),
        "last_write": (number("last_write", "first", 0), number("last_write", "count", 1)),
        "looks": (number("looks", "most", 1), looked_at), "numbers_after": (most, ("places", [40960], places())),
        "columns": (number("columns", "most", 1),), "until": (condition, number("until", "most", 1)),
        "back_until": ((FORM, [(2, 0, 1, 0)], conditions()),),
        "back": (number("back", "count", 1),), "forward": (number("forward", "count", 1),)}


def of_assembler():
    """Returns the same of the assembler."""
    source, texts = ("source", SOURCE, BYTES), (
        5, None, {}, "AB", b"AB", [b"A"], [(b"A",)], [(b"A", b"", b"")], [("A", b"")], [(b"A", 5)], [(5, 5)], iter([(b"A", b"")]))
    cells = (5, None, [0], "0", {0: 1.5}, {1.5: 0}, {"0": 0}, {None: None}, *({one: 0} for one in outside(16)),
             *({0: one} for one in outside(16)))
    return {
        "text": (source, number("assemble", "form", 1), ("texts", [(b"A", b"")], texts)),
        "load_lines": (source, number("load_lines", "processor", 0)),
        "disassembled": ((("cells", "address", "word"), {0: 0}, cells),
                         (("entries", "address"), [0], (5, None, [1.5], "0", [None], *([one] for one in outside(16)))))}


def of_module(path):
    """Returns the calls that need no session, the options of a new session among them."""
    options = {"deck": BYTES, "panel": BYTES, "path": (5, b"", b"libpp6600.so", 1.5, ["libpp6600.so"], object()),
               **{name: (*NO_NUMBERS[:4], *NO_NUMBERS[5:], *outside(bits)) for name, bits in NUMBERS["open"].items()}}
    for name, wrong in options.items():
        yield lambda given, name=name: LibrarySession(**{"path": path, name: given}).close(), name, (
            ((name, "pp6600: BAD ARGUMENTS"), None, wrong),)
    for call, name in (library.text_of_status, "status"), (library.instruction, "code"):
        yield lambda given, call=call: call(given, path), call.__name__, (number(call.__name__, name, 0),)


def all_wrong(session, assembler, path):
    """Yields for each wrong argument a call, its name, its arguments, the names that the argument may have, and itself."""
    calls = [(getattr(made, name), name, parts) for made, table in ((session, of_session()), (assembler, of_assembler()))
             for name, parts in table.items()]
    for call, what, parts in (*calls, *of_module(path)):
        for at, (names, _, wrong) in enumerate(parts):
            for given in wrong:
                right = [one for _, one, _ in parts]
                yield call, what, [*right[:at], given, *right[at + 1:]], (names,) if isinstance(names, str) else names, given


def faults(path):
    """Makes all wrong calls. Returns those that are not as they should be, and how many there are."""
    found, made = [], 0
    with LibrarySession(history=100, central=32768, path=path) as session:
        session.answer(b"SET M 0 100 1405 0376\nSET P 0 100\nSTEP 40\nBACK 10\n")
        before = session.counts(), session.numbers(0, 106592 + 32768)
        for call, what, arguments, names, given in all_wrong(session, Assembler(path), path):
            made += 1
            try:
                call(*arguments)
                found.append(f"{what}{arguments!r} is taken")
            except (TypeError, Failure) as error:
                kind = Failure if type(given) is int and given != 5 else TypeError if type(given) in (int, float) else type(error)
                if not isinstance(error, kind) or not any(str(error).startswith(name) for name in names):
                    found.append(f"{what}{arguments!r}: {error!r} does not name {names}")
            if made % 20 == 0:
                assert (session.counts(), session.numbers(0, 106592 + 32768)) == before, what
        assert (session.counts(), session.numbers(0, 106592 + 32768)) == before
    return found, made
