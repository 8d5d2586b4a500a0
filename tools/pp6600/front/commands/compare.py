"""Two runs: the first turn after which the machines differ."""

from argparse import Namespace
from typing import Any, Iterator, List, Optional, Sequence, Set, Tuple, Union

from ...engine.interface import P
from ...language.symbol_options import FILES, SYMBOL_OPTIONS, Given, symbols_from, symbols_of
from ...language.versions import Versions, address_name
from ...run.forms import PROCESSORS
from ...run.names import AllSymbols
from ...run.search import halve
from ...run.session import Session
from ...run.state import Difference, central_differences, central_of, state_of
from ...run.tape import STEP
from ...shell.command_line import Failure, arguments, processor, script_lines, simulator, words_after, write
from ...shell.progress import Progress
from ...shell.script import performed

DESCRIPTION = """Compares two runs: those of two scripts, or of one script with another deck or panel. Shows the first turn, octal
from 1, after which the machines differ, the places with both numbers, and the processor and the instruction of that turn in each
run. Numbers that differ before the first turn are shown first, and compared no more. It looks at some turns and then halves the
distance, so machines that differ for a while and are then the same again may be missed. If the second run has labels of its own, as
two versions of a program have, the cells of that processor are compared by their labels, and so are addresses in cells and
registers; a label that has more cells in one version is shown. With --path it compares for each processor the addresses to which
its turns led, by their labels too, and shows the turn in which the ways part. The exit status is 0 if there is no difference, else
1."""

SAMPLES = 0o20  # turns that are looked at first
MOST_SHOWN = 0o20  # of the places that differ


class Side:
    """One of the two runs."""

    def __init__(self, words: Sequence[str], lines: Sequence[str], symbols: Any = AllSymbols()) -> None:
        self.symbols = symbols
        done, refusals = performed(words, symbols.loading(lines))
        self.run, self.status = done.search(done.in_effect()), refusals.status
        self.turns = self.run.tape.turns

    def at(self, turn: int, has_settings: bool = True) -> Session:
        """Goes to after a turn, with the settings before the next one or without them. Returns the run."""
        tape = self.run.tape
        self.run.goto(tape.after_turn(turn) if has_settings else tape.at_turn(turn))
        return self.run

    def maker(self, turn: int) -> str:
        """Returns in words what the run did in a turn."""
        run = self.at(turn - 1)
        slot, maker = run.slot(), run.processor(run.slot())
        address = self.symbols.beside(slot, maker.p)
        return f"TURN {turn:o} PP {slot:02o} P {address} {maker.text}{self.symbols.line_at_p(slot, maker)}"

    def path(self, number: int, progress: Progress) -> Iterator[Tuple[int, Union[int, str]]]:
        """Yields the turns of a processor, each with the address to which it led, by its label if it has labels."""
        run, tape, names = self.run, self.run.tape, self.symbols.of.get(number)
        for start, end, action in zip(tape.starts, tape.starts[1:], tape.runs):
            if action.line != STEP:
                continue
            run.goto(start)
            while run.position < end:
                progress.show(run.turn)
                first, own = run.turn + 1, (number - run.slot()) % PROCESSORS
                addresses, _ = run.engine.numbers_after(min(end - run.position, run.room), [P + number])
                run.performed(len(addresses))
                for at in range(own, len(addresses), PROCESSORS):
                    yield first + at, names and address_name(names, addresses[at]) or addresses[at]


class Comparison:
    """Two runs, the programs of which they have two versions, and the places that are compared no more."""

    def __init__(self, sides: Sequence[Side], numbers: Sequence[int] = ()) -> None:
        """The processors with these numbers have labels in each run."""
        self.sides = sides
        self.versions = [Versions(number, [side.symbols.of[number] for side in sides]) for number in numbers]
        self.turns = min(side.turns for side in sides)
        self.known: Set[str] = set()
        self.progress = Progress(self.turns)

    def after(self, turn: int, has_settings: bool = True) -> List[Difference]:
        """Returns the differences after a turn, but those at known places."""
        self.progress.show(turn)
        runs = [side.at(turn, has_settings) for side in self.sides]
        states = [state_of(run) for run in runs]
        found = list(states[0].differences(states[1]))
        for program in self.versions:
            found = [*program.differences(states), *(difference for difference in found if not program.replaces(difference))]
        found += central_differences(*map(central_of, runs))
        return [difference for difference in found if difference[0] not in self.known]

    def first(self) -> Optional[int]:
        """Returns the first turn after which they differ, or None. They are the same at the beginning."""
        same = 0
        for number in range(1, SAMPLES + 1):
            turn = self.turns * number // SAMPLES
            if turn > same and self.after(turn):
                return halve(same, turn, lambda middle: bool(self.after(middle)))
            same = turn
        return None


def parting(comparison: Comparison, number: int) -> Optional[List[int]]:
    """Returns the turn of each side in which the ways of a processor part; None if they do not, as far as both go."""
    pairs = zip(*(side.path(number, comparison.progress) for side in comparison.sides))
    return next(([turn for turn, _ in pair] for pair in pairs if len({address for _, address in pair}) > 1), None)


def compare_paths(comparison: Comparison) -> Iterator[str]:
    """Yields for each processor whose ways part the turns in which they do, the first one first."""
    found = {number: turns for number in range(PROCESSORS) if (turns := parting(comparison, number))}
    for number, turns in sorted(found.items(), key=lambda one: (one[1], one[0])):
        yield f"THE WAYS OF PP {number:02o} PART"
        yield from (side.maker(turn) for side, turn in zip(comparison.sides, turns))


def lines_of(found: Sequence[Difference]) -> Iterator[str]:
    for place, one, other in found[:MOST_SHOWN]:
        yield f"{place} {one} / {other}"
    if len(found) > MOST_SHOWN:
        yield f"AND {len(found) - MOST_SHOWN:o} MORE"


def compare(comparison: Comparison) -> Iterator[str]:
    """Yields the lines that say how two runs differ."""
    found = comparison.after(0)
    if found:
        yield "BEFORE TURN 1"
        yield from lines_of(found)
        comparison.known = {place for place, _, _ in found}
    turn = comparison.first()
    if turn:
        yield f"AFTER TURN {turn:o}"
        yield from lines_of(comparison.after(turn))
        if comparison.after(turn, has_settings=False):
            yield from (side.maker(turn) for side in comparison.sides)
        else:
            yield "BY THE SETTINGS AFTER THAT TURN"
    if len({side.turns for side in comparison.sides}) > 1:
        yield "THE RUNS HAVE " + " AND ".join(f"{side.turns:o}" for side in comparison.sides) + " TURNS"
    for program in comparison.versions:
        yield from program.lengths()


def other_words(asked: Namespace) -> List[str]:
    """Returns the words of the second simulator."""
    for name in ("deck", "panel"):
        other = getattr(asked, f"other_{name}")
        setattr(asked, name, getattr(asked, name) if other is None else other)
    return simulator(asked)


def of_its_own(asked: Namespace) -> Set[int]:
    """Returns the processors of which the second run has symbols or a source of its own."""
    return {processor(number) for number, _ in (*asked.other_symbols, *asked.other_source)}


def other_symbols(asked: Namespace) -> AllSymbols:
    """Returns the symbols and sources of the second run: its own, and for the other processors those of the first one."""
    own = of_its_own(asked)
    listings, sources = ([one for one in pairs if processor(one[0]) not in own] for pairs in (asked.symbols, asked.source))
    return symbols_from([*listings, *asked.other_symbols], [*sources, *asked.other_source], Given(asked.text, asked.system))


def main() -> int:
    parser = arguments(DESCRIPTION, "[OPTION ..] [SCRIPT [SCRIPT]]")
    parser.add_argument("--other-deck", metavar="F", help="the deck of the second run")
    parser.add_argument("--other-panel", metavar="F", help="the panel of the second run")
    parser.add_argument("--path", action="store_true",
                        help="compare the way of each processor from address to address alone, by labels where there are some")
    asked = parser.parse(SYMBOL_OPTIONS, [
        ("--other-symbols", {**FILES, "help": "the labels of the second run, if it has others"}),
        ("--other-source", {**FILES, "help": "the source of the second run, if it has another"}),
        ("scripts", {"nargs": "*", "metavar": "SCRIPT",
                     "help": "with another deck or panel one script is enough, and without it standard input is the script"})])
    has_other = asked.other_deck is not None or asked.other_panel is not None or bool(asked.other_source)
    words_after(asked.scripts, 2, "give two scripts")
    if len(asked.scripts) < 2 and not has_other:
        raise Failure("give two scripts, or one script with --other-deck or --other-panel")
    words, symbols = simulator(asked), symbols_of(asked)
    scripts = [script_lines(path) for path in asked.scripts or [None]]
    sides = [Side(words, scripts[0], symbols), Side(other_words(asked), scripts[-1], other_symbols(asked))]
    status = 0
    versions = sorted(of_its_own(asked).intersection(symbols.of))
    comparison = Comparison(sides, versions)
    for line in comparison.progress.passed((compare_paths if asked.path else compare)(comparison)):
        write(line, at_once=True)
        status = 1
    for side in sides:
        side.run.close()
    if not status:
        write(f"NO DIFFERENCE{' OF THE WAYS' if asked.path else ''} IN {min(side.turns for side in sides):o} TURNS")
    statuses = [side.status() for side in (sides if len(scripts) > 1 else sides[:1])]  # of one script the lines are said once
    return max(status, *statuses)
