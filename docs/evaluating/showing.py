"""Shows a value as an expression that has this value: of a machine, what is not as in the machine at rest."""

from itertools import groupby
from typing import Any, Iterable, Iterator, List, Optional, Tuple

from book.sources import Definition
from evaluating.asking import PLACES, Definitions
from evaluating.lists import NIL, Cons, Partial, Stuck, items, listed, stuck, together

Shown = Tuple[str, int]  # a text, and how strongly it binds
ATOM, CALL, CONS, APPENDED = 99, 98, 67, 65
NAMED = ("rules", "pp6600")  # constants that are shown by their names
# The numbers of a machine, and of what a processor sees of one: each field with its place, or with the fields that it has.
PROCESSOR = [("p", "Place.RegP"), ("a", "Place.RegA"), ("q", "Place.RegQ"), ("phase", "Place.Phase"), ("cells", "Place.Cell")]
MACHINE = [("processors", PROCESSOR), ("channels", [("states", "Place.ChannelMode"), ("registers", "Place.ChannelWord")]),
           ("central", "Place.Central"), ("frame", "Place.FrameWord"), ("printer", [("symbols", "Place.PaperSymbol")]),
           ("watches", "Place.WatchEntry"),
           ("reader", [("card", "Place.Card"), ("column", "Place.CardColumn"), ("mode", "Place.ReaderMode")]),
           ("printer", [("length", "Place.PaperLength"), ("column", "Place.PaperColumn"), ("mode", "Place.PrinterMode")]),
           ("channels", [("clock", "Place.Clock")]), ("slot", "Place.Slot")]
VIEW = [(field, f"PpPlace.{name}") for _, name, field, *_ in PLACES]
ESCAPES = {**{code: chr(code) for code in range(32, 127)}, 9: "\\t", 10: "\\n", 13: "\\r", 34: '\\"', 92: "\\\\"}


TEXT_CRATES = ("pp_lines", "pp_command", "pp_console", "pp_files", "pp_arguments", "pp_trouble", "pp_host", "pp_program")
TEXT_FILES = ("pp_arith/Octal", "pp_arith/OctalRead")


def has_texts(definition: Optional[Definition]) -> bool:
    """Tells whether lists of numbers are texts in a definition."""
    return definition is not None and (definition.crate in TEXT_CRATES or definition.place in TEXT_FILES)


def is_list(value: Any) -> bool:
    """Tells whether a value is a list."""
    return value is NIL or isinstance(value, Cons)


def not_zero(xs: Any) -> Iterator[Tuple[int, Any]]:
    """Yields the elements of a list that are not 0, with their indices."""
    width = getattr(xs, "width", 0)
    for k, row in enumerate(xs.parts if width else [tuple(items(xs))]):
        if any(row):
            yield from ((k * width + at, x) for at, x in enumerate(row) if x != 0)


def inside(shown: Shown, least: int) -> str:
    """Returns a text in brackets if it binds less strongly than this."""
    return shown[0] if shown[1] >= least else f"({shown[0]})"


class Shower:
    """Shows values; lists of numbers as texts if that is wanted; at most so many parts."""

    def __init__(self, definitions: Definitions, has_texts: bool = False, most: int = 10 ** 6):
        self.definitions, self.has_texts, self.left, self.at_rest = definitions, has_texts, most, definitions.call("at_rest")

    def text(self, value: Any) -> str:
        """Returns a value as an expression."""
        return self.shown(value)[0]

    def part(self, value: Any) -> str:
        """Returns a value as an argument."""
        return inside(self.shown(value), ATOM)

    def called(self, name: str, given: Iterable) -> Shown:
        """Returns a name with arguments."""
        parts = list(map(self.part, given))
        return " ".join([name, *parts]), CALL if parts else ATOM

    def shown(self, value: Any) -> Shown:
        """Returns a value as an expression, and how strongly it binds."""
        self.left -= 1
        if self.left < 0:
            raise Stuck("a value that is too long to show")
        if isinstance(value, bool):
            return str(value).lower(), ATOM
        if isinstance(value, int):
            return (f"0o{value:o}" if value > 7 else str(value)), ATOM
        if isinstance(value, tuple) and isinstance(value[0], str):
            return self.called(self.constructor(value[0]), value[1:])
        if isinstance(value, tuple):
            return f"({', '.join(map(self.text, value))})", ATOM
        if isinstance(value, dict):
            return self.record(value)
        if is_list(value):
            return self.list(value)
        return self.function(value)

    def constructor(self, tag: str) -> str:
        """Returns the name of a constructor, with its type if several types have one of this name."""
        name = tag.split(".")[-1]
        owner = self.definitions.scope.definitions.get(name)
        return name if owner and owner.whole_name == tag and name not in self.definitions.shared else tag

    def function(self, value: Any) -> Shown:
        """Returns a definition or a constructor with some of its arguments."""
        function, given = (value.function, value.given) if isinstance(value, Partial) else (value, ())
        if function is together:
            return self.called(self.constructor(given[0]), given[1:])
        if function is stuck:
            stuck(*given)
        for definition, made in self.definitions.functions.items():
            if made.name == getattr(function, "__name__", ""):
                return self.called(self.definitions.name_of(definition), given)
        raise Stuck("the text of a function")

    # ---- lists

    def list(self, value: Any) -> Shown:
        """Returns a list: a text, or its elements, with long runs of one of them as copies."""
        codes = list(items(value)) if self.has_texts and not getattr(value, "width", 0) else []
        if codes and all(type(code) is int and code in ESCAPES for code in codes) and (codes == [10] or max(codes) >= 32):
            self.left -= len(codes) // 8
            return f'codes "{"".join(map(ESCAPES.get, codes))}"', CALL
        parts: List[Shown] = []
        for is_long, runs in groupby(self.runs(value), lambda run: run[1] > 5):
            if is_long:
                parts += [(f"replicate {self.part(count)} {inside(shown, ATOM)}", CALL) for shown, count in runs]
            else:
                row = [inside(shown, CONS + 1) for shown, count in runs for _ in range(count)]
                parts.append((" ∷ ".join([*row, "[]"]), CONS))
        return (" ++ ".join(text for text, _ in parts), APPENDED) if len(parts) > 1 else parts[0] if parts else ("[]", ATOM)

    def runs(self, value: Any) -> Iterator[Tuple[Shown, int]]:
        """Yields the elements as they are shown, each with the number of those that follow each other and are shown so."""
        same = [list(group) for _, group in groupby(items(value), id)]
        self.left -= 0 if getattr(value, "width", 0) else sum(map(len, same)) - len(same)
        for shown, groups in groupby(same, lambda group: self.shown(group[0])):
            yield shown, sum(map(len, groups))

    # ---- records

    def record(self, value: dict) -> Shown:
        """Returns a record; a machine, or what a processor sees of one, by the numbers that are not 0."""
        for name in NAMED:
            if value is self.definitions.call(name):
                return name, ATOM
        if "processors" in value:
            return self.over("over", self.base(value["setup"], value["reader"]["deck"]), self.writes(value, MACHINE))
        is_view = "states" in value and "cells" in value
        if is_view and value["clock"] == 0 and len(list(items(value["central"]))) == 0o2000:
            return self.over("pp_step/View:over", "pp_worked/Processors:blank", self.writes(value, VIEW))
        if is_view:
            channels = {name: value[name] for name in ("states", "registers", "clock")}
            return self.called("pp_of 0", [{**self.at_rest, **value, "processors": listed([value]), "channels": channels}])
        if "standing" in value and value["ahead"] is NIL and self.text(value["start"]) == "at_rest":
            actions = list(items(value["standing"]))[::-1]
            if value["kept"] == min(value["capacity"], len(actions)):
                return self.called("session", [value["capacity"], listed(actions)])
        return "record { " + "; ".join(f"{field} = {self.text(part)}" for field, part in value.items()) + " }", CALL

    def base(self, setup: dict, deck: Any) -> str:
        """Returns the machine at its start with a setup and a deck."""
        if setup != {**self.at_rest["setup"], "panel": setup["panel"]}:
            return f"(starting_machine {self.part(setup)} {self.part(deck)})"
        if deck is not NIL or setup["panel"] != ("None",):
            return f"(pp_worked/Machines:blank {self.part(deck)} {self.part(setup['panel'])})"
        return "at_rest"

    @staticmethod
    def over(over: str, base: str, writes: Iterable[str]) -> Shown:
        """Returns what has a write list put in."""
        writes = [*writes, "[]"]
        return (f"{over} {base} ({' ∷ '.join(writes)})", CALL) if writes[1:] else (base, CALL if " " in base else ATOM)

    def writes(self, value: Any, fields: Any, given: tuple = ()) -> Iterator[str]:
        """Yields the numbers of a record, or at a place, that are not 0, each with its place."""
        if is_list(value):
            for i, x in not_zero(value):
                yield from self.writes(x, fields, (*given, i))
        elif isinstance(fields, list):
            for name, inner in fields:
                yield from self.writes(value[name], inner, given)
        elif value:
            yield f"({self.called(self.constructor(fields), given)[0]}, {self.part(value)})"
