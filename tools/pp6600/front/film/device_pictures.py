"""What devices of one's own show at the moments of a film, as SVG. Each line of all pictures is kept once. The script that the page
performs has the replies of the devices, so a device only looks here."""

from __future__ import annotations

from itertools import chain, repeat
from typing import Any, Dict, Iterable, Iterator, List, Sequence, Tuple

from ...devices.pictures import svg
from ...failure import Failure
from ...run.console import COUNTED, Console
from ...run.device import CompanionDevice, Value, drawn
from ...run.past import Past, past_of

MOST_MOMENTS = 0o1000000  # the page records all of them
TURN = "STEP 1"
MOVES = {"BACK": -1, "FORWARD": 1}


def moments_of(console: Console, lines: Sequence[str]) -> Iterator[Tuple[str, bool]]:
    """Performs the lines of a script turn by turn. Yields for each moment of the film the answer, and whether it is of a turn."""
    for line in lines:
        asked = COUNTED.fullmatch(line)
        turns = int(asked[2] or "1", 8) if asked and asked[1].upper() == "STEP" else 0
        for answer in map(console.ask, repeat(TURN, turns) if turns else [line]):
            if turns or answer and answer[0].split()[0] in ("OK", *MOVES):
                yield answer[0], bool(turns)


def values_at(console: Console, pasts: Sequence[Past], moments: Iterable[Tuple[str, bool]]) -> Iterator[Tuple[Value, ...]]:
    """Yields the values of devices at each moment: after a turn they look, and a BACK or FORWARD leads to those that they had."""
    known, position = [(tuple(past.value for past in pasts), 0)], 0  # with the turns in effect, by how many actions are in effect
    for answer, is_turn in moments:
        kind, *rest = answer.split()
        values, turn = known[position]
        if is_turn:
            turn += 1
            values = tuple(past.looked(value, past.now(console.engine), turn)[0] for past, value in zip(pasts, values))
        position += MOVES[kind] * int(rest[0], 8) if kind in MOVES else 1
        if kind not in MOVES:
            known[position:] = [(values, turn)]
        yield known[position][0]


def pictures_of(words: Sequence[str], devices: Sequence[CompanionDevice], lines: Sequence[str]) -> Dict[str, Any]:
    """Returns what the page has to know of the pictures of devices, while it performs the lines of a script for the simulator
    alone: of each device which lines are seen from which moment on."""
    seen = [device for device in devices if type(device).picture is not CompanionDevice.picture]
    numbers: Dict[str, int] = {}
    shown: List[List[Tuple[int, List[int]]]] = [[] for _ in seen]
    states: List[Any] = [None] * len(shown)
    with Console(words) as console:
        pasts, moments = [past_of(device, console) for device in seen], chain([("BACK 0", False)], moments_of(console, lines))
        for moment, values in enumerate(values_at(console, pasts, moments) if shown else ()):
            if moment >= MOST_MOMENTS:
                raise Failure(f"with devices a film has at most {MOST_MOMENTS:o} (octal) moments, and this run has more")
            for at, (device, value) in enumerate(zip(seen, values)):
                if value.state is states[at] and moment:
                    continue
                states[at] = value.state
                text = [numbers.setdefault(line, len(numbers)) for line in (drawn(device, value.state, svg) or "").splitlines()]
                if not shown[at] or shown[at][-1][1] != text:
                    shown[at].append((moment, text))
    parts = [{"name": type(device).__name__, "channel": device.channel, "shown": own} for device, own in zip(seen, shown)]
    table = {"devices": parts, "lines": list(numbers), "script": sum(len(line) + 1 for line in lines)}
    return {"pictures": {**table, "moments": moment + 1}} if parts else {}
