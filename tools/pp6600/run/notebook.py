"""The machine as a small table in HTML, which a notebook shows."""

from __future__ import annotations

from html import escape
from typing import Iterable, Sequence

from .forms import REGISTERS
from .turn import Processor, states_of

HEADS = ("", "PP", *REGISTERS, "instruction", "waits for")
MARK = ">"  # the processor whose turn comes next


def row(cells: Iterable[str], kind: str = "td") -> str:
    return f"<tr>{''.join(f'<{kind}>{escape(cell)}</{kind}>' for cell in cells)}</tr>"


def table_of(slot: int, processors: Sequence[Processor], channels: Sequence[str], devices: Sequence[str]) -> str:
    """Returns the table of the ten processors, of which one is next, the lines of DUMP H, and the lines of the devices."""
    states = states_of(channels)
    rows = [row((MARK if number == slot else "", f"{number:02o}", *processor.registers.values(),
                 processor.text, processor.waits_for(states))) for number, processor in enumerate(processors)]
    beside = [row(("H", *(line[2:4] for line in channels)), "th"), row(("", *(line[5:] for line in channels)))]
    return (f"<table>{row(HEADS, 'th')}{''.join(rows)}</table><table>{''.join(beside)}</table>"
            f"<p>{'<br>'.join(map(escape, devices))}</p>")
