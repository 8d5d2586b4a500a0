"""Makes the tables of docs/DEFINITIONS.md: the rows of the instruction table, and the guards and effects of the devices.

What an instruction writes, and the guards, are the text of the definitions, with the words of pp_step/Rows put in. The examples are
steps that were computed.
"""

import functools
import re
from typing import Any, Container, Iterator, List, Optional, Tuple

from book.expressions import Apply, Lambda, Let, Name, Pair
from book.sources import Definition
from evaluating.asking import Definitions, stepped, written
from evaluating.lists import items
from evaluating.writing import Writer, cases, put_in

MNEMONIC = re.compile(r"-- ([0-7]{2}) ([A-Z]{3})$", re.M)
TWO_WORDS = ("Memory", "Unindexed")
# What a processor finds before each step of the table; P is 0100, d is 05, and m is 0300.
BEFORE = ["A=1003", "M 5=200", "M 200=7", "M 500=7", "C 1003=12345670123456701234", "H 5=1234", "XP 0=00123400000005000000"]
STATES = (("inactive", 5, 0), ("empty", 5, 1), ("full", 5, 2), ("with a function", 5, 3), ("14", 0o14, None), ("15", 0o15, None))
NEXT = "P := i.next"  # is left out of a row that writes more, and of its example
MOST = 9  # places of a step that are all shown; of more the first three


def cell(text: str) -> str:
    """Returns code as a cell of a table."""
    return "`" + text.replace("|", "\\|") + "`"


def table(heads: List[str], rows: List[List[str]]) -> str:
    """Returns a table in Markdown."""
    return "\n".join(f"| {' | '.join(row)} |" for row in [heads, ["---"] * len(heads), *rows])


def is_operator(tree: Any, words: Container) -> bool:
    """Tells whether an expression is one of these operators with its two sides."""
    return isinstance(tree, Apply) and isinstance(tree.head, Name) and tree.head.word in words


def is_cons(tree: Any) -> bool:
    """Tells whether an expression is a list with a head and a tail."""
    return is_operator(tree, ["∷"])


class Tables:
    """The tables, from the definitions."""

    def __init__(self, top: str):
        self.definitions = Definitions(top)
        self.writer = Writer(self.definitions.fixity)

    def body(self, name: str) -> Tuple[Any, List[Let]]:
        """Returns what a definition of one clause is, and the names that it gives to parts of it."""
        tree, lets = self.definitions.function(self.definitions.named(name)).clauses[0][1], []
        while isinstance(tree, Let):
            lets.append(tree)
            tree = tree.body
        return tree, lets

    # ---- guards and effects

    def effect(self, tree: Any) -> str:
        """Returns a write list as assignments, or what else it is."""
        parts = []
        while is_cons(tree) and isinstance(tree.given[0], Pair):
            place, number = map(self.writer.text, tree.given[0].parts)
            parts.append(f"{place} := {number}")
            tree = tree.given[1]
        parts += [self.writer.text(tree)] * (tree != Name("[]"))
        return re.sub(r"\b(?:state_number|\w+_mode_number) (\w+)", r"\1", "; ".join(parts)) or "nothing"

    def guards(self, tree: Any) -> Iterator[Tuple[str, str]]:
        """Yields the guard and the effect of each case."""
        for tests, value in cases(tree):
            guard = " && ".join(self.writer.text(test, 36 if len(tests) > 1 else 0) for test in tests)
            yield re.sub(r"\b\w+_mode_number (\w+)", r"\1", guard), self.effect(value)

    def device(self, name: str) -> str:
        """Returns the table of a definition that is a chain of choices."""
        tree, lets = self.body(name)
        rows = [[cell(guard) if guard else "otherwise", cell(effect) if effect != "nothing" else effect]
                for guard, effect in self.guards(tree)]
        said = ", ".join(f"`{one.name.word}` is {cell(self.writer.text(one.value))}" for one in lets)
        made = table(["If", "it writes"], rows)
        return f"{made}\n\nHere {re.sub(r'_mode_number (?=[A-Z])', '_mode_number ', said)}." if said else made

    # ---- the instructions

    def opened(self, tree: Any) -> Any:
        """Returns an expression with what a word of pp_step/Rows, or the issue of a block transfer, stands for."""
        head, given = tree if isinstance(tree, Apply) else (tree, [])
        found = self.definitions.scope.definitions.get(head.word) if isinstance(head, Name) else None
        if isinstance(found, Definition) and found.kind == "function" and found.place in ("pp_step/Rows", "pp_step/Blocks"):
            patterns, body = self.definitions.function(found).clauses[0]
            is_opened = self.is_word(body) or not isinstance(body, (Apply, Let)) or is_operator(body, self.definitions.fixity)
            if len(patterns) == len(given) and is_opened:
                return self.opened(put_in(body, dict(zip((one.word for one in patterns), given))))
        return tree._replace(yes=self.opened(tree.yes), no=self.opened(tree.no)) if hasattr(tree, "yes") else tree

    def is_word(self, body: Any) -> bool:
        """Tells whether a body is a call of a word of pp_step/Rows."""
        found = self.definitions.scope.definitions.get(getattr(getattr(body, "head", None), "word", ""))
        return isinstance(found, Definition) and found.place == "pp_step/Rows"

    @functools.lru_cache(None)
    def rows(self) -> List[Tuple[str, str, str, str]]:
        """Returns of each row its code, its mnemonic, its addressing mode and what it writes."""
        tree, _ = self.body("rows")
        comments = dict(MNEMONIC.findall(self.definitions.named("rows").text))
        found = []
        while is_cons(tree):
            code, (*name, mode, effect) = f"{len(found):02o}", tree.given[0].given
            mnemonic = re.findall(r"[A-Za-z]\w*", self.writer.text(name[0]))[-1][:3].upper() if name else comments[code]
            inner = effect.body if isinstance(effect, Lambda) else Apply(effect, [Name("i"), Name("s")])
            parts = [(guard, what.replace(f"{NEXT}; ", "")) for guard, what in self.guards(self.opened(inner))]
            parts = [f"{guard}: {what}" if guard else what for guard, what in parts]
            found.append((code, mnemonic, mode.word, " / ".join(parts)))
            tree = tree.given[1]
        return found

    def step(self, code: str, mode: str, channel: int = 5, state: Optional[int] = 2, is_move: bool = False) -> str:
        """Returns what a step writes: of an instruction, or of its block transfer."""
        word = f"{int(code, 8) << 6 | channel:04o}"
        program = [word, *["0300"] * (mode in TWO_WORDS)]
        before = [*BEFORE, *([f"S {channel:o}={state}"] if state is not None else [])]
        if is_move:
            program, before = [], [*before, "M 0=101", "M 300=5670", f"PHASE={word}", "P=300"]
        writes = list(items(next(stepped(self.definitions, program + before, 1))))
        writes = writes[1:] if len(writes) > 1 and writes[0] == (("PpPlace.P",), 0o100 + len(program)) else writes
        more = [f"and {len(writes) - 3} (decimal) more"] if len(writes) > MOST else []
        return ", ".join([*map(written, writes[:3] if more else writes), *more]) or "waits"

    def instructions(self) -> str:
        """Returns the table of all rows."""
        rows = [[code, name, mode, cell(effect), self.step(code, mode)] for code, name, mode, effect in self.rows()]
        return table(["Code", "Name", "Operand", "It writes", "For example"], rows)

    def channels(self) -> str:
        """Returns what 70 to 77, and the moves of 71 and 73, write by the state of their channel."""
        own = [row for row in self.rows() if row[0] >= "70"]
        rows = [(f"{code} {name}", code, mode, False) for code, name, mode, _ in own]
        rows += [(f"{code} moves", code, mode, True) for code, _, mode, _ in own if code in ("71", "73")]
        cells = [[head, *(self.step(code, mode, *place, is_move) for _, *place in STATES)] for head, code, mode, is_move in rows]
        return table(["Code", *(name for name, *_ in STATES)], cells)


@functools.lru_cache(None)
def tables_of(top: str) -> Tables:
    """Returns the tables of a repository."""
    return Tables(top)


def made(top: str, name: str) -> str:
    """Returns a table by its name: `instructions`, `channels`, or that of a definition."""
    tables = tables_of(top)
    return getattr(tables, name)() if name in ("instructions", "channels") else tables.device(name)
