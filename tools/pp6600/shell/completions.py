"""The completions of shells: files of share with a line `# the values of options`, in whose place are rows of one table."""

from __future__ import annotations

import re
from typing import Dict, Sequence

from ..run.forms import PROCESSORS
from .options import OPTIONS

MARK = re.compile("^( *)# the values of options\n", re.M)
NUMBERS = ("history", "last", "turn", "turns", "around", "from", "to", "count")  # options whose values no shell can propose
# What a shell proposes after an option.
VALUES: Dict[str, Sequence[str]] = {
    **{name: option.values for name, option in OPTIONS.items() if option.values},
    **dict.fromkeys(("processor", "symbols", "source"), tuple(f"{number:o}" for number in range(PROCESSORS)))}
# A row of each shell: options with values, and options with a number.
ROWS = {"bash": ("--{name}) mapfile -t COMPREPLY < <(compgen -W '{values}' -- \"$word\") ;;", "--{name}) COMPREPLY=() ;;"),
        "zsh": ("--{name}) _values value {values}; return ;;", "--{name}) _message number; return ;;"),
        "fish": ("complete -c $command -l {name} -x -a '{values}'", "complete -c $command -l {name} -x")}


def filled(shell: str, text: str) -> str:
    """Returns the completion of a shell, of a text with the mark: a row for each option whose value is known to be one of some, or
    a number."""
    with_values, with_number = ROWS[shell]
    rows = [with_values.format(name=name, values=" ".join(values)) for name, values in VALUES.items()] + [
        with_number.format(name=name) for name in NUMBERS]
    return MARK.sub(lambda mark: "".join(f"{mark[1]}{row}\n" for row in rows), text)
