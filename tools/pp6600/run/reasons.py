"""Why a line was refused: the word that is meant, or the form of the command. docs/CONSOLE.md has the causes, and docs/CARD.md
the forms."""

import re
from typing import List, Optional, Sequence, Tuple

from .forms import CENTRAL_ADDRESSES, CLOCK, KINDS, MOST_TURNS
from .console import LONGEST_LINE

FORMS = ("SET M n a v ..", "SET A n v", "SET P n v", "SET Q n v", "SET C a v", "SET H c s [v]", "STEP [count]",
         "BACK [count]", "BACK W", "FORWARD [count]", "WATCH place", "UNWATCH place", "DEADSTART", "DUMP M n a b", "DUMP PP n",
         "DUMP H", "DUMP C a b", "DUMP XP", "DUMP CR", "DUMP LP", "DUMP W")
PLACES = ("M n a", "A n", "P n", "Q n", "C a", "H c")
COMMANDS = tuple(dict.fromkeys(form.split()[0] for form in FORMS))
SET_STATES = ("I", "E", "F")
ADVICE = {"10": "the tool changes finds older ones", "11": "UNWATCH one of them first; DUMP W shows them",
          "12": "DUMP W shows what is watched", "13": "DUMP W shows what is watched", "14": "the option --panel names its file",
          "15": "WATCH a place first"}


def kinds_of(command: str) -> List[str]:
    """Returns the words that may follow a command: kinds of places, or what is dumped."""
    if command in ("WATCH", "UNWATCH"):
        return list(KINDS)
    return list(dict.fromkeys(form.split()[1] for form in FORMS if form.startswith(f"{command} ")))


def listed(words: Sequence[str], last: str = "or") -> str:
    *others, end = words
    return f"{', '.join(others)} {last} {end}" if others else end


def not_a_command(words: Sequence[str]) -> str:
    """Returns which word is none of those that may be there."""
    command = words[0].upper()
    if command not in COMMANDS:
        import difflib  # few sessions need it
        near = difflib.get_close_matches(command, COMMANDS, 1)
        return f"{words[0]} is no command" + (f"; {near[0]} is" if near else f": they are {listed(COMMANDS, 'and')}")
    kinds = kinds_of(command)
    if words[1].upper() not in kinds:
        return f"word 2: {words[1]} is not {listed(kinds)}"
    return f"word 4: {words[3]} is not {listed(SET_STATES)}"


def form_of(words: Sequence[str]) -> str:
    """Returns the forms of the command that is meant."""
    command, kind = words[0].upper(), words[1].upper() if len(words) > 1 else ""
    if command in ("WATCH", "UNWATCH"):
        places = [place for place in PLACES if place.split()[0] == kind] or PLACES
        return f"the form is {listed([f'{command} {place}' for place in places])}"
    forms = [form for form in FORMS if form.split()[0] == command]
    of_kind = [form for form in forms if form.split()[1:2] == [kind]]
    most = "; at most 10 (octal) numbers in a line" if command == "SET" and kind == "M" and len(words) > 4 else ""
    return f"the form is {listed(of_kind or forms)}{most}"


def numbers_of(words: Sequence[str], central: int) -> List[Tuple[int, int, int]]:
    """Returns each number of a line: its index among the words, the least and the most that it may be."""
    command, kind = words[0].upper(), words[1].upper() if len(words) > 1 else ""
    if command in ("STEP", "BACK", "FORWARD"):
        return [(1, 1, MOST_TURNS)]
    if kind not in KINDS and kind != "PP":
        return []
    sizes = {"C": (central,), "H": (CLOCK + (command != "SET"),), "PP": KINDS["P"].sizes}.get(kind) or KINDS[kind].sizes
    most: List[Optional[int]] = [size - 1 for size in sizes]
    if command == "DUMP":
        most += most[-1:] if kind in "MC" else []
    elif command == "SET":
        most += ([None] if kind == "H" else []) + [8 ** KINDS[kind].digits - 1] * (len(words) - 2 - len(sizes))
    return [(at, 0, one) for at, one in enumerate(most, 2) if one is not None and at < len(words)]


def named(words: Sequence[str], at: int) -> str:
    """Returns a word with its place in the line."""
    return f"word {at + 1}{' (decimal)' if at + 1 > 7 else ''}: {words[at]}"


def not_octal(words: Sequence[str], central: int) -> str:
    for at, _, _ in numbers_of(words, central):
        if not re.fullmatch("[0-7]+", words[at]):
            return f"{named(words, at)} is not octal"
    return form_of(words)


def out_of_range(words: Sequence[str], central: int) -> str:
    for at, least, most in numbers_of(words, central):
        number = int(words[at], 8)
        if not least <= number <= most:
            return f"{named(words, at)} is not {least:o} to {most:o}"
    return f"{named(words, len(words) - 2)} is over {words[-1]}"


def reason(line: str, answer: str, central: int = CENTRAL_ADDRESSES) -> str:
    """Returns in a line why a line was refused, with the first line of its answer; nothing if there is no more to say. Central
    memory has so many words."""
    number, words = answer[4:6], line.split()
    if number == "05":
        return f"it has {len(line.removesuffix(chr(13)))} bytes, and may have {LONGEST_LINE} (both decimal)"
    if number == "06":
        at = next((at for at, byte in enumerate(line) if byte != "\t" and not " " <= byte <= "~"), 0)
        return f"byte {at + 1} (decimal) is neither a tab nor a printing character of ASCII"
    if number in ("03", "04"):
        return (not_octal if number == "03" else out_of_range)(words, central)
    if number in ("01", "02"):
        return (not_a_command if number == "01" else form_of)(words)
    return ADVICE.get(number, "")
