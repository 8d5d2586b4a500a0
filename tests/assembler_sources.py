"""Sources for the assemblers, and cells for the disassemblers: those of the repository, and others made at random, also of lines
that make, choose or repeat others: IF, DUP, MACRO, micros and RMT, right and wrong; and what the library's assembler says of a
source.

    python3 -m tests.assembler_sources   prints a checksum of each answer that FROZEN_SUM is of, for a change of the assembler
"""

import glob
import hashlib
import os
import random
import re
from typing import Callable, Dict, Iterator, List, Sequence, Tuple

from .cases import stored_blocks
from .support import TOP, read

from pp6600.engine.assembler import LISTING, WORDS, Text
from pp6600.language.notation import MNEMONICS
from pp6600.language.program import complaints_of, source_of, written
from pp6600.run.forms import CELLS

LIKELY = (0, 0o100, 0o200, 0o300, 0o376, 0o2400, 0o1077, 0o7777)  # words that are treated in their own way
PLACES = ("examples/*/*.pp", "exercises/**/*.pp", "tests/programs/**/*.pp", "tests/debug/*.pp")
RANDOM = 150
PARTS = {title: "".join(lines).split("|") for title, lines in stored_blocks("programs/lines.txt")[1]}
OPERATIONS = [*MNEMONICS, *PARTS["operations"]]
SYMBOLS = "ABCHLRZ0123456789 \t ,,=+-*/()$."
IN_MACRO, DEEPEST = 3, 5  # how deep the lines of a macro are said to be, and how deep lines may be in others


def chosen(choose: random.Random, parts: str) -> str:
    """Returns one of the parts of lines with this name in tests/programs/lines.txt."""
    return choose.choice(PARTS[parts]).replace("\\t", "\t")


def line(label: str, text: str) -> str:
    name, _, operand = text.partition(" ")
    return f"{label:10}{name:6} {operand}".rstrip()


def plain(choose: random.Random, depth: int) -> List[str]:
    if choose.random() < 0.1:
        return ["* NOTE"]
    return [line(chosen(choose, "labels"), chosen(choose, "plain")) for _ in range(choose.randrange(1, 4))]


def condition(choose: random.Random, depth: int) -> List[str]:
    name, count = chosen(choose, "names"), chosen(choose, "counts")
    end = choose.choice([name, name, "", " Z"])
    middle = [line(choose.choice([name, ""]), "ELSE"), *some(choose, depth)] if choose.random() < 0.4 else []
    last = [] if count and choose.random() < 0.7 or choose.random() < 0.05 else [line(end, "ENDIF")]
    return [line(name, chosen(choose, "conditions") + count), *some(choose, depth), *middle, *last]


def repeated(choose: random.Random, depth: int) -> List[str]:
    end = [] if choose.random() < 0.2 else [line("", "ENDD")]
    return [line(chosen(choose, "names"), chosen(choose, "repetitions")), *some(choose, depth), *end]


def macro(choose: random.Random, depth: int) -> List[str]:
    head = chosen(choose, "macros").split(";")
    inner = [line("", choose.choice(["LOCAL L1,L2", "LOCAL L1", "LOCAL"]))] if choose.random() < 0.3 else []
    calls_of_itself = [line("", "MCA 1")] if choose.random() < 0.05 else []
    parts = [line("", "IRP P"), *some(choose, IN_MACRO),
             *choose.choice([[line("", "IRP")], [line("", "IRP")], []])] if choose.random() < 0.4 else []
    end = [] if choose.random() < 0.05 else [line("", "ENDM")]
    return [line(*head), *inner, *some(choose, IN_MACRO), *parts, *calls_of_itself, *end, *calls(choose, depth)]


def calls(choose: random.Random, depth: int) -> List[str]:
    names = ["MCA", "MCB", "MCA", "SUBR", "LDN", "LDX"]
    return [line(chosen(choose, "labels"), f"{choose.choice(names)} {chosen(choose, 'operands of calls')}")
            for _ in range(choose.randrange(1, 4))]


def micro(choose: random.Random, depth: int) -> List[str]:
    return [line(choose.choice([" M", " M", " A", "", " NO"]), chosen(choose, "micros")), *plain(choose, depth)]


def remote(choose: random.Random, depth: int) -> List[str]:
    name = chosen(choose, "names")
    here = [line(choose.choice([name, ""]), f"HERE {choose.choice(['', '', 'X'])}")] if choose.random() < 0.6 else []
    return [line(name, "RMT"), *some(choose, depth), line("", "RMT"), *plain(choose, depth), *here]


def names(choose: random.Random, depth: int) -> List[str]:
    made, used = chosen(choose, "operations named").split(";"), chosen(choose, "named operations")
    return [line(*made), line(chosen(choose, "labels"), used), *plain(choose, depth)]


OTHERS: Sequence[Callable[[random.Random, int], List[str]]] = (
    plain, condition, condition, repeated, macro, macro, calls, micro, micro, remote, names)


def some(choose: random.Random, depth: int) -> List[str]:
    """Returns lines of one kind, or of several; those within others are plain ones in the end, and those of a macro call none."""
    kinds = OTHERS if depth < IN_MACRO else (plain, condition, repeated, micro) if depth < DEEPEST else (plain,)
    return [one for _ in range(choose.choice((0, 1, 1, 1, 2))) for one in choose.choice(kinds)(choose, depth + 1)]


def source(choose: random.Random) -> List[str]:
    """Returns the lines of a source, some of which may be without others, or have small letters."""
    lines = [line(" A", choose.choice(["EQU 5", "SET 5", "SET 0-3"])), line(" B", "SET 6"), line("", "ORG 100B")]
    lines += choose.choice([[], [line("", "BASE OCTAL")]])
    for _ in range(choose.randrange(1, 5)):
        lines += choose.choice(OTHERS)(choose, 0)
    lines += choose.choice([[], [line(" LATER", "LDN 1")], [line("", "END"), line("", "LDN 1")]])
    if choose.random() < 0.2:
        del lines[choose.randrange(len(lines))]
    return [one.lower() if choose.random() < 0.02 else one for one in lines][:60]


def statement(choose: random.Random) -> str:
    """Returns a line at random."""
    kind = choose.random()
    if kind < 0.06:
        return "*  NOTE" if kind < 0.04 else f",{chosen(choose, 'elements')}"
    name, label = choose.choice(OPERATIONS), chosen(choose, "labels of statements") if choose.random() < 0.4 else ""
    count = choose.choice((0, 1, 1, 1, 1, 2, 2, 3))
    parts = [expression(choose) for _ in range(count)]
    if name == "VFD" and choose.random() < 0.8:
        parts = [f"{choose.choice((3, 6, 12, 18, 5, 60))}/{one}" for one in parts or ["1"]]
    likely = {"DIS": "texts", "DATA": "data", "LIT": "data", "USE": "blocks", "QUAL": "qualifiers",
              "IDENT": "names of programs"}.get(name)
    operand = chosen(choose, likely) if likely and choose.random() < 0.8 else ",".join(parts)
    line = f"{label:10}{name:6} {operand}"
    line += choose.choice(["", "", "", "  COMMENT"])
    line = choose.choice([line] * 9 + [line.lower(), line.replace("   ", "\t", 1), f"{line:70} ABCDEF"])
    return line


def expression(choose: random.Random) -> str:
    return chosen(choose, "elements") + choose.choice(["", "", f"{choose.choice('+-*^/')}{chosen(choose, 'elements')}"])


def changed(choose: random.Random, lines: List[str]) -> List[str]:
    """Returns lines of a source, some of them with another symbol."""
    first = choose.randrange(max(len(lines) - 40, 1))
    found = lines[:2] + lines[max(first, 2):first + 40]
    for at in (choose.randrange(len(found)) for _ in range(choose.randrange(4))):
        place = choose.randrange(len(found[at]) + 1)
        found[at] = found[at][:place] + choose.choice(["", choose.choice(SYMBOLS)]) + found[at][place + choose.randrange(2):]
    return found


def sources(count: int = RANDOM) -> Iterator[List[str]]:
    """Yields the lines of each source: those of the repository, and so many made at random."""
    paths = sorted(path for place in PLACES for path in glob.glob(os.path.join(TOP, place), recursive=True))
    real = [read(path).removesuffix("\n").split("\n") for path in paths]
    choose = random.Random(65)
    yield from real
    for _ in range(count):
        yield choose.choice(KINDS)(choose, real)


def statements(choose: random.Random, real: Sequence[List[str]]) -> List[str]:
    """Returns lines of one statement each."""
    return [*choose.choice([[], ["          ORG    100B"], ["          ORG    7770B"]]),
            *choose.choice([[], ["          BASE   OCTAL"], ["          BASE   OCTAL"], ["          BASE   DECIMAL"]]),
            *(statement(choose) for _ in range(choose.randrange(1, 14)))]


KINDS = (lambda choose, real: changed(choose, choose.choice(real)), statements, lambda choose, real: source(choose))
# How many sources are made of which an assembler in Python, which was written apart from this one and went, had the same answers,
# and a checksum of these. 35 of them, with faults then and now, have forms that are taken since, and 13 have what is a fault since,
# a tab in a text of DIS or a comma or slash in a qualifier: their answers are later ones.
FROZEN, FROZEN_SUM = 3000, "cc80875b6c32"


def program(choose: random.Random) -> List[str]:
    """Returns a program with statements of all kinds that make or name addresses. Each fits in its place, so nothing is wrong with
    it."""
    lines = ["          BASE   OCTAL", " MAC      MACRO  P", "          LOCAL  L", " L        LDN    P", "          ENDM",
             f"          ORG    {choose.randrange(0o100, 0o6000):o}"]
    for number in range(choose.randrange(1, 30)):
        label = choose.choice(("", "", f" A{number}", f"B{number}=", f" C.{number}"))
        one = chosen(choose, "program")
        if one.split(" ")[0] in ("SUBR", "EQU", "SET"):
            label = label or f" D{number}"
        lines.append(f"{label:9} {one}")
        body = {"DUP 2": ["          PSN", "          ENDD"], "IFEQ 1,2": [" NOT      PSN", "          ENDIF"]}
        lines += body.get(one, [])
    return [*lines, "          PSN"]


FROZEN_KINDS = (program, lambda choose: changed(choose, program(choose)), source, lambda choose: statements(choose, []),
                lambda choose: [["          ORG    100B"], ["          BASE   OCTAL"]][choose.randrange(2)] + [statement(choose)])


def made_at_random() -> Iterator[List[str]]:
    """Yields the lines of the sources that FROZEN_SUM is of: they depend on no file but tests/programs/lines.txt."""
    choose = random.Random(81)
    for _ in range(FROZEN):
        yield choose.choice(FROZEN_KINDS)(choose)


def sections(name: str) -> Dict[str, List[Tuple[List[str], List[str]]]]:
    """Returns the sections of a file of cases by their headings: each case is the lines of a source, and what follows these."""
    found: Dict[str, List[Tuple[List[str], List[str]]]] = {}
    for part in read("tests", "programs", name).split("\n# ")[1:]:
        heading, _, text = part.partition("\n")
        cases = [case.splitlines() for case in re.split(r"\n\n+", text.strip("\n"))]
        found[heading.partition(".")[0]] = [([line[1:] for line in case if line.startswith("|")],
                                            [line for line in case if not line.startswith("|")]) for case in cases]
    return found


def window(choose: random.Random, size: int) -> Dict[int, int]:
    """Returns cells at random, some of which name one another, with gaps."""
    first = choose.choice((0, min(0o100, CELLS - size), CELLS - size, choose.randrange(CELLS - size + 1)))
    likely = (*LIKELY, *(choose.randrange(first, first + size) for _ in range(4)))
    cells = {address: choose.choice(likely) if choose.random() < 0.4 else choose.randrange(CELLS)
             for address in range(first, first + size)}
    for _ in range(choose.choice((0, 0, 1, 3))):
        if len(cells) > 1:
            del cells[choose.choice(list(cells))]
    return cells


# ---- what the library says

def listing(lines: Sequence[str], texts: Sequence[Text] = ()) -> List[str]:
    return written(lines, LISTING, texts)


def answer(lines: Sequence[str]) -> bytes:
    """Returns what is said of a source, and its words and its listing, if it has no fault."""
    said, faults = complaints_of(lines)
    return source_of([*said, *([] if faults else [*written(lines, WORDS), *listing(lines)])])


def sum_of(said: bytes) -> str:
    return hashlib.sha256(said).hexdigest()[:12]


def frozen_sums() -> List[str]:
    """Returns a checksum of the answer to each source made at random."""
    return [sum_of(answer(lines)) for lines in made_at_random()]


if __name__ == "__main__":
    print(*frozen_sums(), sep="\n")
