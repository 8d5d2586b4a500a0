"""The processors that wait."""

import sys
from typing import Any, Dict, FrozenSet, Iterator, List, NamedTuple, Sequence, Set, Tuple

from ...devices.options import DEVICE_OPTIONS, replayed
from ...engine import interface as flat
from ...engine.choose import is_proved
from ...engine import origins as of
from ...engine.interface import CHANGES, INSIDE, OUTSIDE, Form
from ...language.symbol_options import SYMBOL_OPTIONS, symbols_of
from ...run.conditions import Column, Condition, changes, joined
from ...run.forms import CELLS, CLOCK, MOST_TURNS, MOST_WATCHES, PROCESSORS, REGISTERS, STATES, Place
from ...run.names import AllSymbols
from ...run.past import name_of
from ...run.search import Progress, Search, Turn, TurnFinder, go_on, last_found, no_progress, turn_at
from ...run.searches import search_for
from ...run.session import Session
from ...run.state import State, central_of, state_of
from ...run.tape import REJECT, STEP, Position, ReplyLine, Tape
from ...run.turn import JUMPS_IN, Processor, places_of_setting
from ...run.written import made_turn
from ...shell.command_line import SCRIPT_WORD, TURN_OPTION, arguments, write_lines
from ...shell.progress import Progress as ShownProgress

DESCRIPTION = """Shows each processor that waits at the end of a script: the address of its instruction and its name, P,
the channel that it waits for with its state and register, and the turn since which it waits, counted in octal from 1.
FROM in place of SINCE: it will wait in its next turn, which has this number, if the channel is still the same. In a block
transfer P is the cell of the next word; the address is NONE if no such instruction is where cell 0000 says, as after a
dead start. A jump to itself is no wait, but for one that tests a channel, which GOES ROUND. FOR EVER: nothing in the machine can
end the wait any more, and no device of one's own is due or will see a change. The line below says since which turn the channel is
as it is, and who made it so: a processor with its P and instruction, a device, a SET or a DEADSTART, or nobody. A processor that
performs the same instructions again and again, and reads the same central words, GOES ROUND too: below is each of these words, with
the names of the devices that see it."""

FUNCTION = STATES[-1]  # the state of a channel that is full with a function code

# After so many turns the clock is as it was, and so are processors that pass through their memories.
CLOCK_TRIP = PROCESSORS * CELLS
# After so many times as many also loops of most lengths are, and those of one or two rounds that count in a cell. Each is a
# multiple of the one before.
TRIPS = (1, 2, 2 * 9, 2 * 9 * 5, 2 * 9 * 5 * 7)
LATEST = 0o10000  # turns at the end, in which a processor that goes round does so twice


class Waiting(NamedTuple):
    """A processor that waits at the end of a run."""

    number: int
    processor: Processor  # before the turn that it would have
    line: str  # what is written first of it
    source: str  # the line of its source, after two blanks, if it has one

    def in_place_since(self, run: Session, progress: Progress) -> int:
        """Returns the number of turns after which its registers and its instruction stay those of the end."""
        places = {*(Place(name, (self.number,)) for name in REGISTERS), Place("M", (self.number, self.processor.p))}
        found = last_found(Search(run, [TurnFinder([[Form(CHANGES, place.number, 1)] for place in places])], progress), 1)
        return max(found[0][1] if found else 0, last_set(run, places))

    def first_turn(self, run: Session, progress: Progress) -> str:
        """Returns since which turn it waits: its first one in its place, or the turn that it will have."""
        tape, since = run.tape, self.in_place_since(run, progress)
        turn = turn_after(tape, since, self.number)
        return (f"SINCE TURN {turn:o}" if turn
                else f"FROM TURN {tape.turns + 1 + (self.number - tape.slot(tape.end)) % PROCESSORS:o}")


def turn_after(tape: Tape, turns: int, number: int) -> int:
    """Returns the number of the first turn of a processor after so many turns; 0 if there is none."""
    position = tape.next_turn(number, tape.after_turn(turns))
    return 0 if position is None else tape.turn(position) + 1


def last_set(run: Session, places: Set[Place]) -> int:
    """Returns the number of turns before the last setting that changed the number at one of some places; 0 if there is none."""
    tape = run.tape
    for end, turns, action in zip(reversed(tape.starts), reversed(tape.turns_before), reversed(tape.runs)):
        if action.line != STEP and not places.isdisjoint(places_of_setting(action.line)):
            was, now = (numbers_at(run, position, places) for position in (Position(end - action.times), end))
            if was != now:
                return turns
    return 0


def numbers_at(run: Session, position: Position, places: Set[Place]) -> List[Sequence[int]]:
    run.goto(position)
    return [run.engine.numbers(place.number, 1) for place in places]


def drop_moved(run: Session, turn: int, last: int, numbers: Set[int], progress: Progress) -> None:
    """Makes the turns after the end from one number of them to another, and drops the processors that move from the watched ones,
    up to the last of these."""
    while turn < last and numbers:
        progress(run.tape.turns + turn)
        made, *hits = run.demand(f"STEP {min(last - turn, MOST_TURNS):o}")
        turn += int(made.split()[1], 8)
        for number in {int(line.split()[2], 8) for line in hits}:
            numbers.discard(number)
            run.demand(f"UNWATCH P {number:o}")


def may_come(found: Session, progress: Progress) -> bool:
    """Returns whether a device may do something after the end: it is due, or there is something for it to see, now or in the turns
    that are tried."""
    alternatives: List[List[Form]] = []
    with found.search() as run:
        go_on(run, run.tape.end, progress)
        for past in found.pasts:
            value = past.values[past.entry_at(run.tape.end)]
            if value is None or value.due is not None or past.now(run.engine) != value.seen:
                return True
            alternatives += past.alternatives(value.seen)
        condition = joined(alternatives)
        for made in range(0, CLOCK_TRIP * TRIPS[-1] if alternatives else 0, CLOCK_TRIP):
            progress(run.tape.turns + made)
            if run.engine.until(condition, CLOCK_TRIP)[1]:
                return True
        return False


def waiting_for_ever(found: Session, numbers: Sequence[int], progress: Progress) -> Set[int]:
    """Returns those of at most eight waiting processors that will never go on: the machine comes back to a state where it was,
    and meanwhile they have not moved. Then it does so again and again."""
    with found.search() as run:
        go_on(run, run.tape.end, progress)
        before, central, staying, passed = state_of(run), central_of(run), set(numbers), 0
        for number in numbers:
            run.demand(f"WATCH P {number:o}")
        for trips in TRIPS:
            drop_moved(run, CLOCK_TRIP * passed, CLOCK_TRIP * trips, staying, progress)
            passed = trips
            if not staying or not any(before.differences(state_of(run))) and central == central_of(run):
                return staying
    return set()


# ---- who changed a channel or a central word last

def last_change(run: Session, place: Place, symbols: Any, progress: Progress) -> str:
    """Returns the turn of the last change of a channel or a central word, or the one before a setting, and who made it."""
    condition, (turns, name) = Condition([[changes(Column(place), place.kind == "H")]]), last_setting(run.tape, place)
    position, turn = next(iter(last_found(search_for(run, condition, progress), 1)), (Position(0), 0))
    if turn > turns:
        turns, name = turn, maker(run, place, turn_at(run, position), symbols)
    return f"SINCE TURN {turns:o}, BY {name}"


def last_setting(tape: Tape, place: Place) -> Tuple[int, str]:
    """Returns after which turn the last SET of a place was, or of a channel also a DEADSTART, and its name; that of nobody if there
    is none."""
    kind, (number,) = place
    for turns, action in zip(reversed(tape.turns_before), reversed(tape.runs)):
        words = action.line.upper().split()
        if words[0] == "DEADSTART" and kind == "H" or words[:2] == ["SET", kind] and int(words[2], 8) == number:
            return turns, action.setter
    return 0, "NOBODY"


def maker(run: Session, place: Place, made: Turn, symbols: Any) -> str:
    """Returns who changed a channel or a central word in a turn: its processor, or else a device."""
    run.goto(made.position)
    channel = place.numbers[0]
    if place.kind == "C" or {flat.STATES + channel, place.number}.isdisjoint(origin.place for origin in made_turn(run).others):
        return made.maker(symbols)
    return own_devices(run).get(channel, "A DEVICE")


def own_devices(run: Session) -> Dict[int, str]:
    """Returns the devices of the machine by their channels."""
    return {run.reader_channel: "THE READER", run.printer_channel: "THE PRINTER"}


def refusal(run: Session, state: State, channel: int) -> str:
    """Returns which code a device on a channel did not take, after a semicolon; nothing if it took the last one."""
    companions = {past.device.channel: name_of(past.device) for past in run.pasts if past.device.channel is not None}
    names, (_, letter, register) = {**own_devices(run), **companions}, state.channels[channel]
    if letter == FUNCTION and channel in names:
        return f"; {names[channel]} {'HAS NOT TAKEN' if channel in companions else 'TAKES NO'} {register}"
    for start, action in zip(reversed(run.tape.starts[:-1]), reversed(run.tape.runs)):
        if isinstance(action.line, ReplyLine) and Place.first_of(action.line.split()[1:])[0] == Place("H", (channel,)):
            if action.line.origin.split()[1:] != [REJECT]:
                break
            run.goto(start)
            return f"; {companions[channel]} REJECTED {run.channel(channel).split()[1]}"
    return ""


# ---- processors that go round

class Round(NamedTuple):
    """What a processor does again and again: the addresses of its instructions, and the central words that it reads."""

    number: int
    first: int
    last: int
    words: Sequence[int]

    def since(self, run: Session, progress: Progress) -> int:
        """Returns the number of the turn by which it came to these instructions: the first one after it was elsewhere."""
        ends, no_block = (flat.P + self.number, self.first, self.last), Form(INSIDE, flat.PHASE + self.number)
        left, inside = ([TurnFinder([[Form(kind, *ends), no_block]])] for kind in (OUTSIDE, INSIDE))
        turns = max((turn for _, turn in last_found(Search(run, left, progress), 1)), default=0)
        found = next((turn for _, turn in Search(run, inside, progress).found(turns)), 0)
        return found or turn_after(run.tape, max(turns, last_set(run, {Place("P", (self.number,))})), self.number)


def rounds(run: Session) -> List[Round]:
    """Returns the rounds of processors whose latest turns were twice the same, and read central words."""
    tape = run.tape
    turns: List[List[Tuple[int, FrozenSet[int]]]] = [[] for _ in range(PROCESSORS)]
    for row, end in tape.rows_of_turns(tape.at_turn(max(tape.turns - LATEST, 0))):
        run.goto(row)
        while run.position < end:
            made = made_turn(run)
            read = frozenset(reading.place for origin in made.own for reading in origin.reads
                             if flat.CENTRAL <= reading.place < of.NOTHING)
            turns[made.processor].append((made.address, read))
    found = []
    for number, those in enumerate(turns):
        size = next((size for size in range(1, len(those) // 2 + 1) if those[-size:] == those[-2 * size:-size]), 0)
        addresses, words = {address for address, _ in those[-size:]}, frozenset[int]().union(*(read for _, read in those[-size:]))
        if size and words:
            found.append(Round(number, min(addresses), max(addresses), sorted(words)))
    return found


def round_lines(run: Session, one: Round, symbols: Any, progress: Progress) -> Iterator[str]:
    """Yields a line for a round, and one for each central word that is read in it."""
    at, to = (symbols.beside(one.number, address) for address in (one.first, one.last))
    line = f"PP {one.number:02o} GOES ROUND AT {at} TO {to} SINCE TURN {one.since(run, progress):o}"
    run.goto(run.tape.end)
    yield line + symbols.line_at_p(one.number, run.processor(one.number))
    for number in one.words:
        seen, place = [name_of(past.device) for past in run.pasts if number in past.places], Place.at(number)
        run.goto(run.tape.end)
        yield (f"  {place.text} {run.number(place)} "
               f"{last_change(run, place, symbols, progress)}{', SEEN BY ' if seen else ''}{' AND '.join(seen)}")


# ---- the lines

def goes_round_at_itself(processor: Processor, states: Sequence[str]) -> bool:
    """Returns whether an instruction tests a channel and jumps to itself, as EJM *,5 does while channel 05 is not full."""
    return not processor.phase and processor.code in JUMPS_IN and processor.words[1] == processor.p and \
        processor.state(states) in JUMPS_IN[processor.code]


def at_end(run: Session, symbols: Any, progress: Progress) -> Tuple[List[Waiting], State]:
    """Returns the processors that wait at the end, with the line of each."""
    go_on(run, run.tape.end, progress)
    state, found = state_of(run), []
    for number, processor in enumerate(state.processors):
        goes_round = goes_round_at_itself(processor, state.states())
        if goes_round or processor.would_wait(state.states()):
            address = processor.address(state.memories[number].number)
            at, p = ("NONE" if one is None else symbols.beside(number, one) for one in (address, processor.p))
            name = f"{processor.name} GOES ROUND" if goes_round else processor.name
            line = f"PP {number:02o} AT {at} {name} P {p} {channel_line(state, processor.channel)}"
            cell = state.memories[number].number
            # before its instruction
            begun = None if address is None else Processor(address, 0, 0, 0, (cell(address), cell(address + 1)))
            found.append(Waiting(number, processor, line, symbols.line_at_p(number, begun) if begun else ""))
    return found, state


def channel_line(state: State, number: int) -> str:
    """Returns a channel as DUMP H has it, or that there is none."""
    return " ".join(["H", *state.channels[number]]) if number < len(state.channels) else f"H {number:02o} NONE"


def waits(run: Session, symbols: Any = AllSymbols(), progress: Progress = no_progress) -> Iterator[str]:
    """Yields a line for each processor that waits, and one for its channel."""
    found, state = at_end(run, symbols, progress)
    own = {past.device.channel for past in run.pasts}
    numbers = [one.number for one in found if one.processor.channel not in own]  # a device may end its wait
    numbers = [] if numbers and run.pasts and may_come(run, progress) else numbers
    for_ever = set[int]().union(*(waiting_for_ever(run, numbers[at:at + MOST_WATCHES], progress)
                                  for at in range(0, len(numbers), MOST_WATCHES)))
    channels = sorted({one.processor.channel for one in found if one.processor.channel < CLOCK})
    changes = {channel: last_change(run, Place("H", (channel,)), symbols, progress) for channel in channels}
    for one in found:
        yield f"{one.line} {one.first_turn(run, progress)}{', FOR EVER' if one.number in for_ever else ''}{one.source}"
        if one.processor.channel in changes:
            refused = refusal(run, state, one.processor.channel)
            yield f"  {channel_line(state, one.processor.channel)} {changes[one.processor.channel]}{refused}"
    waiting = {one.number for one in found}
    yield from (line for one in rounds(run) if one.number not in waiting for line in round_lines(run, one, symbols, progress))


def main() -> int:
    asked = arguments(DESCRIPTION).parse(TURN_OPTION, SYMBOL_OPTIONS, DEVICE_OPTIONS, SCRIPT_WORD)
    symbols = symbols_of(asked)
    run, refusals = replayed(asked, symbols, asked.script, asked.turn)
    if not is_proved(run.engine) and sys.stderr and sys.stderr.isatty():
        print("waits: searching; this takes minutes with the simulator in Python", file=sys.stderr, flush=True)
    shown = ShownProgress(run.tape.turns)
    write_lines(shown.passed(waits(run, symbols, shown.show)), "NO PROCESSOR WAITS", at_once=True)
    run.close()
    return refusals.status()
