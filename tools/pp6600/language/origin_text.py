"""The steps of an origin as text: a line each. A chain of single sources stays at one depth; of several sources the one at the same
place goes on at that depth, after the others and the addresses, which are set in."""

from __future__ import annotations

import re
from typing import Any, Callable, Dict, Iterator, List, Optional, Sequence, Set, Tuple

from ..run.forms import Place
from ..run.names import AllSymbols
from ..run.origin_search import DEADSTART, LINE_END, PAPER, PRINTER, READER, SET, START, TICK, TURN, Link, OriginSearch, Step
from ..run.session import Session
from ..run.tape import Position, ReplyLine, SourceLine, Tape
from ..run.turn import BLOCKS, Processor
from ..shell.text_files import bytes_of

MOST_STEPS = 0o40  # by processors, without --all
INDENT = "  "
STATE_WORDS = ("INACTIVE", "EMPTY", "FULL", "FUNCTION")
NOTE = re.compile(r"[ \t]*([*].*)?\r?")
Parts = Tuple[int, ...]
# a step that is to be shown, its place, how deep, and the parts that are wanted
Task = Tuple[Optional[Step], Place, int, Optional[Parts]]
Shown = Tuple[Optional[Step], str]  # a step, if it was searched, and its line


class WordFile:
    """The lines of a deck or panel file that are no notes, each with its number, from 1, and its words."""

    def __init__(self, path: Optional[str]) -> None:
        lines = bytes_of(path).decode("latin-1").split("\n") if path is not None else []
        self.lines = [(number, line.split()) for number, line in enumerate(lines, 1) if not NOTE.fullmatch(line)]

    def word(self, index: int) -> Tuple[int, int]:
        """Returns the number of the line that has a word of the file, from 0, and the word's number in the line, from 1."""
        for number, words in self.lines:
            if index < len(words):
                return number, index + 1
            index -= len(words)
        raise IndexError(index)


def origin_rows(run: Session, place: Place, position: Position, *how: Any, symbols: Any = AllSymbols(),
                with_reasons: bool = False) -> List[Shown]:
    """Returns the lines of the origin of the number that is at a place at a position, each with its step. How it is searched is as
    `OriginSearch` has it."""
    search, now = OriginSearch(run, *how), None
    search.is_loaded = symbols.is_loaded
    step = search.origin(place, position)
    if place.kind == "P":
        run.goto(position)
        now = run.number_at(place)
    return list(Writer(run.tape, run.words, symbols, with_reasons).rows(step, now))


class Writer:
    """Makes the lines."""

    def __init__(self, tape: Tape, words: Sequence[str], symbols: Any = AllSymbols(), with_reasons: bool = False) -> None:
        """The words are the program and its options, which name the deck file and the panel file."""
        self.tape, self.symbols, self.with_reasons = tape, symbols, with_reasons
        self.deck, self.panel = (WordFile(words[words.index(option) + 1] if option in words else None)
                                 for option in ("--deck", "--panel"))

    def rows(self, root: Step, now: Optional[str] = None) -> Iterator[Shown]:
        """Yields the lines of a step and of all that it came from, each with its step; None for one that was not searched. P
        advances after it is written; now it has this number."""
        seen: Set[int] = set()  # steps, and links that were followed
        todo: List[Task] = [(root, root.place, 0, None)]
        while todo:
            step, place, depth, parts = todo.pop()
            if step is None:
                yield None, f"{INDENT * depth}{place.text} .. DEEPER"
                continue
            turn = "START" if step.cause == START else f"TURN {self.tape.turn(step.position):o}"
            line = f"{INDENT * depth}{step.place.text} {step.number} {turn}"
            links = self.wanted(step, parts)
            if id(step) in seen and (step.links or step.addresses or step.code) and seen.issuperset(map(id, links)):
                yield step, f"{line} AS ABOVE"
                continue
            seen.update([id(step), *map(id, links)])
            text = " ".join([line, *self.how(step, links)]).rstrip()
            yield step, text + (f", NOW {now}" if now and step is root else "") + self.source_line(step)
            todo += self.following(step, [*links, *step.code], depth)

    @staticmethod
    def wanted(step: Step, parts: Optional[Parts]) -> List[Link]:
        """Returns the links of a step, if these parts of its word are wanted: of a word that was joined only those that wrote
        them."""
        if parts is None or step.cause != TURN or not step.write.is_joined:
            return step.links
        places = [place for part, (place, _) in enumerate(step.write.sources) if part in parts]
        return [link for link in step.links if link.place in places]

    @staticmethod
    def following(step: Step, links: Sequence[Link], depth: int) -> List[Task]:
        """Returns what follows a line, the last one first."""
        same = links if len(links) == 1 else [link for link in links if link.place == step.place][-1:]
        others = [link for link in links if link not in same]
        return [*((link.step, link.place, depth, link.parts) for link in same),
                *((link.step, link.place, depth + 1, link.parts) for link in reversed([*others, *step.addresses]))]

    # ---- what wrote it

    def how(self, step: Step, links: Sequence[Link]) -> List[str]:
        """Returns the words that say what wrote a number, and from what."""
        if step.cause == TURN:
            return [self.instruction(step), *self.times(step), *self.sources(step, links)]
        how: Dict[int, Callable[[Step], List[str]]] = {
            SET: self.by_set, DEADSTART: self.by_dead_start, READER: self.by_reader, PRINTER: lambda step: ["LP STATUS"],
            PAPER: self.by_printing, TICK: lambda step: ["CLOCK"], START: lambda step: []}
        return how[step.cause](step)

    def by_set(self, step: Step) -> List[str]:
        line, word = step.detail
        if isinstance(line, SourceLine):
            return [f"FROM {line.origin(word)}"]
        if isinstance(line, ReplyLine):
            return [f"DEVICE {line.origin}"]
        return [f"SET LINE {line.origin} WORD {word} (decimal)"]

    def by_dead_start(self, step: Step) -> List[str]:
        word = step.detail[1]
        return ["DEADSTART"] + (["PANEL LINE {} WORD {} (decimal)".format(*self.panel.word(word - 1))] if word else [])

    def by_reader(self, step: Step) -> List[str]:
        if step.detail is None:
            return ["CR STATUS"]
        card, column = step.detail
        number, words = self.deck.lines[card]
        where = f"WORD {column + 1} (decimal)" if column < len(words) else f"HAS {len(words)} WORDS (decimal)"
        return [f"CR CARD {card:04o} COLUMN {column:03o} DECK LINE {number} {where}"]

    def by_printing(self, step: Step) -> List[str]:
        half = "" if step.number == LINE_END else f" {'LOWER' if step.detail else 'UPPER'} SIX BITS"
        return [f"LP FROM {step.links[0].place.text}{half}"]

    @staticmethod
    def performer(step: Step) -> Optional[Processor]:
        """Returns the processor before the turn that began the instruction of a step; None if a dead start began it."""
        if not step.processor.phase:
            return step.processor
        begun = step.block and step.block.step
        return begun.processor if begun and begun.cause == TURN else None

    def source_line(self, step: Step) -> str:
        """Returns the line of the source whose instruction wrote a number, after two blanks."""
        processor = self.performer(step) if step.cause == TURN else None
        return str(self.symbols.line_at_p(step.turn.processor, processor)) if processor else ""

    def instruction(self, step: Step) -> str:
        """Returns the processor, and the address and the text of its instruction."""
        processor, performer = step.processor, self.performer(step)
        at = f" AT {self.symbols.beside(step.turn.processor, performer.p)}" if performer else ""
        text = f"{processor.name} {processor.channel:02o}" if processor.code in BLOCKS else processor.text
        return f"PP {step.turn.processor:02o}{at} {text}{'' if at else ' BEGUN BY DEADSTART'}"

    def times(self, step: Step) -> List[str]:
        first = self.tape.turn(step.first_position)
        return [f"{step.times:o} TIMES SINCE TURN {first:o}"] if step.times > 1 else []

    def sources(self, step: Step, links: Sequence[Link]) -> List[str]:
        """Returns from what an instruction wrote a number, and how it computed one."""
        names = [*map(self.name, links), *step.write.constants(step.processor)]
        verb = f"{step.write.words} " if not step.write.is_moved else "FROM " if links else ""
        code = "".join(f" IN {link.place.text}" for link in step.code)
        addresses = "".join(f", ADDRESS IN {link.place.text}" for link in step.addresses)
        return [f"{verb}{' AND '.join(names) or 'ZERO'}{code}{addresses}{self.why(step)}"]

    def why(self, step: Step) -> str:
        """Returns what decided in the turn of a step."""
        reasons = []
        for place, number in step.reasons if self.with_reasons else ():
            is_state = place.kind == "S"  # the name of a channel's state is that of the channel
            name, said = (Place("H", place.numbers), STATE_WORDS[number]) if is_state else (place, f"{number:0{place.digits}o}")
            reasons.append(f"{name.text} WAS {said}")
        return f", BECAUSE {' AND '.join(reasons)}" if reasons else ""

    @staticmethod
    def name(link: Link) -> str:
        parts = f" PART{'S' * (len(link.parts) > 1)} {' '.join(map(str, link.parts))}" if link.parts else ""
        return f"{link.place.text}{parts} {link.number}".rstrip()
