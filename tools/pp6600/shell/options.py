"""The words that a tool is given: the simulator's options, octal numbers and places."""

import argparse
import itertools
import re
import sys
from functools import partial
from typing import Any, List, Mapping, NamedTuple, NoReturn, Optional, Sequence, Tuple

from ..engine.choice import version
from ..engine.choose import default_engine
from ..failure import Failure
from ..run.forms import CELLS, CLOCK, PROCESSORS
from .ending import write


Arguments = Sequence[Tuple[str, Mapping[str, Any]]]  # of each its name, and what argparse is told of it


class Option(NamedTuple):
    """An option of the simulator: what its value is called, what it is, and the values that there are; none if there are many."""

    metavar: str
    help: str
    values: Sequence[str] = ()


CHANNELS = tuple(f"{number:o}" for number in range(CLOCK))
OPTIONS = {"history": Option("N", "the length of the undo history in actions, decimal (else 10000)"),
           "central": Option("K", "the words of central memory in 1024, decimal (else 128)", ("32", "64", "128")),
           "deck": Option("F", "the file of the card deck"),
           "reader": Option("C", "the channel of the card reader, octal (else 12)", CHANNELS),
           "printer": Option("C", "the channel of the printer, octal (else 13)", CHANNELS),
           "panel": Option("F", "the file of the dead start panel")}
PLAIN = "\0"  # before a word that is no option, though it begins like one; no word of a command line has this byte


class BadWord(Failure, argparse.ArgumentTypeError):
    """A word of the command line is not what it must be; the parser names its option."""


class Once(argparse.Action):
    """Takes an option's value, and refuses the same option a second time."""

    def __call__(self, parser: argparse.ArgumentParser, namespace: argparse.Namespace, values: Any,
                 option_string: Optional[str] = None) -> None:
        given = vars(namespace).setdefault("given_options", set())
        if option_string and self.dest in given:
            raise Failure(f"{option_string} is given twice")
        if option_string:
            given.add(self.dest)
        setattr(namespace, self.dest, values)


class Version(argparse.Action):
    """Writes the version and ends."""

    def __call__(self, parser: argparse.ArgumentParser, namespace: argparse.Namespace, values: Any,
                 option_string: Optional[str] = None) -> None:
        write(f"{parser.prog} {version()}")
        parser.exit()


class Parser(argparse.ArgumentParser):
    """The words of a tool. An option may come after other words and at most once; after -- no word is an option."""

    def __init__(self, description: str, usage: Optional[str] = None) -> None:
        usage = usage and f"%(prog)s {usage}"
        super().__init__(description=description, usage=usage, allow_abbrev=False)
        self.register("action", None, Once)
        self.register("action", "store", Once)
        self.add_argument("--version", action=Version, nargs=0, help="show the version and exit")

    def add_forms(self, forms: Mapping[str, str], group: Any = None) -> None:
        """Adds options without values to a group, or as one, of which one may be given: its name is then the form that is asked
        for."""
        group = group or self.add_mutually_exclusive_group()
        for option, text in forms.items():
            group.add_argument(option, dest="form", action="store_const", const=option[len("--"):], help=text)

    def error(self, message: str) -> NoReturn:
        raise Failure(f"{message}; {self.prog} --help shows what may be given".replace(PLAIN, ""))

    def _print_message(self, message: str, file: Any = None) -> None:  # argparse takes no notice of an output that is full
        write(message.rstrip("\n"))

    def parse(self, *tables: Arguments) -> argparse.Namespace:
        """Returns what is asked by the words of the command line. The arguments of tables are added first."""
        for name, form in itertools.chain(*tables):
            self.add_argument(name, **form)
        words = sys.argv[1:]
        if "--" not in words:
            return self.parse_intermixed_args(words)
        at = words.index("--")
        asked = self.parse_intermixed_args(words[:at] + [PLAIN + word if word.startswith("-") else word for word in words[at + 1:]])
        for name, value in vars(asked).items():
            setattr(asked, name, unmarked(value))
        return asked


def unmarked(value: Any) -> Any:
    """Returns a value without the marks of plain words."""
    if isinstance(value, list):
        return [unmarked(one) for one in value]
    return value.replace(PLAIN, "") if isinstance(value, str) else value


def octal(text: str) -> int:
    """Returns a number of the command line."""
    if not re.fullmatch("[0-7]+", text):
        raise BadWord(f"{text} is not octal")
    return int(text, 8)


def up_to(text: str, most: int, what: str) -> int:
    """Returns a number of the command line that is at most so great."""
    number = octal(text)
    if number > most:
        raise BadWord(f"{text} is no {what}: it is 0 to {most:o}, octal")
    return number


processor = partial(up_to, most=PROCESSORS - 1, what="processor")
cell = partial(up_to, most=CELLS - 1, what="cell")
channel = partial(up_to, most=CLOCK, what="channel")


def count(text: str) -> int:
    number = octal(text)
    if number == 0:
        raise BadWord("a count is 1 or more")
    return number


TURN_OPTION: Arguments = [("--turn", {"metavar": "N", "type": octal,
                                      "help": "as it is after turn N, octal, with the settings before the next one"})]
SCRIPT_WORD: Arguments = [("script", {"nargs": "?", "metavar": "SCRIPT", "help": "without it, standard input is the script"})]


def words_after(words: List[str], most: int, what: str) -> List[Any]:
    """Checks that at most so many words are left, and returns them, with None for each that is missing."""
    if len(words) > most:
        raise Failure(f"{what} and no other word, so not also {' '.join(words[most:])}")
    return words + [None] * (most - len(words))


def simulator(asked: argparse.Namespace, others: Mapping[str, str] = {}) -> List[str]:
    """Returns the words of the simulator: the program, and the options that are given, with their values, or with others in their
    place."""
    given = [name for name in OPTIONS if getattr(asked, name) is not None]
    return [asked.program, *(word for name in given for word in (f"--{name}", others.get(name, getattr(asked, name))))]


def arguments(description: str, usage: Optional[str] = None) -> Parser:
    """Returns a parser with the options that every tool with a simulator takes."""
    parser = Parser(description, usage)
    parser.add_argument("--program", metavar="FILE", help="the simulator (else $PP6600, else the one beside the tools)",
                        default=default_engine())
    for name, option in OPTIONS.items():
        parser.add_argument(f"--{name}", metavar=option.metavar, help=option.help)
    return parser
