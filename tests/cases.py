"""Stored cases of programs: those of files such as tests/cases.txt, and the folders of examples/.

A case of a file begins with == and its name. Its other lines:
  $ PROGRAM WORD ..  the program's words, as a shell reads them
  NAME| TEXT         a line of a file that is in the folder where the program runs
  by WAY WORD ..     how it runs, if not in the plain way: a function of tests/ways.py, and its words
  > TEXT             a line of standard input
  TEXT               a line of standard output
  ! TEXT             a line of standard error
  ? N                its exit status, if not 0
Between them are blank lines and notes, which begin with #. Of a text \\r is a carriage return, \\n a line feed, \\xCD a byte,
{TEXT*N} a text N times (decimal), and after a \\ at its end no line feed follows.

A folder of examples/ has these parts as files: args, with a word in each line, stdin, stdout, stderr, status and how.
"""

import os
import re
import shlex
from typing import Dict, Iterable, List, NamedTuple, Sequence, Tuple

TOP = os.path.dirname(os.path.dirname(os.path.abspath(__file__)))
EXAMPLES = os.path.join(TOP, "examples")
PARTS = ("args", "stdin", "stdout", "stderr", "status", "how")
OWN_LINE = re.compile(r"(\$ |by |> ?|! |\? |[a-z]+\| ?|)(.*)")
ESCAPE = re.compile(r"\{(.*?)\*([0-9]+)\}|\\x([0-9a-f]{2})|\\([rn])", re.S)


class Stored(NamedTuple):
    """A case: what the program is given, and what it must write."""

    name: str
    words: List[str]
    script: bytes
    files: Dict[str, bytes]
    out: bytes = b""
    err: bytes = b""
    status: int = 0
    how: Sequence[str] = ()  # a way and its words; nothing if it is the plain one


def part(folder: str, name: str, default: bytes = b"") -> bytes:
    """Returns the bytes of a file of a folder."""
    path = os.path.join(folder, name)
    if not os.path.exists(path):
        return default
    with open(path, "rb") as file:
        return file.read()


def text_of(line: str) -> str:
    """Returns the text of a line with its line feed."""
    def replaced(mark: "re.Match[str]") -> str:
        repeated, count, byte, end = mark.groups()
        if byte:
            return bytes.fromhex(byte).decode("utf-8", "surrogateescape")
        return text_of(f"{repeated}\\") * int(count) if count else {"r": "\r", "n": "\n"}[end]
    return ESCAPE.sub(replaced, line[:-1]) if line.endswith("\\") else f"{ESCAPE.sub(replaced, line)}\n"


def encoded(text: str) -> bytes:
    return text.encode("utf-8", "surrogateescape")


def stored_blocks(name: str) -> Tuple[List[str], List[Tuple[str, List[str]]]]:
    """Returns the lines of a file of tests/ before its first block, and its blocks: what follows == and the lines. Lines that are
    empty and those that begin with # are left out."""
    first, *others = re.split("^== ?", part(os.path.join(TOP, "tests"), name).decode(), flags=re.M)
    found = [[line for line in text.split("\n") if line and line[0] != "#"] for text in (f"\n{first}", *others)]
    return found[0], [(title, lines) for title, *lines in found[1:]]


def marked(pattern: "re.Pattern[str]", lines: Iterable[str]) -> List[Tuple[str, str]]:
    """Returns lines cut into a mark and a text, by a pattern of two groups."""
    return [(found[1].strip(), found[2]) for found in map(pattern.fullmatch, lines) if found]


def gathered(lines: Iterable[Tuple[str, str]], begun: Dict[str, str]) -> Dict[str, str]:
    """Returns the texts of the lines with each mark, after those that have begun."""
    texts = dict(begun)
    for mark, text in lines:
        texts[mark] = texts.get(mark, "") + text_of(text)
    return texts


def files_in(lines: Iterable[Tuple[str, str]], begun: Dict[str, str]) -> Dict[str, str]:
    """Returns the files of lines NAME| TEXT, after those that have begun."""
    return gathered(((mark[:-1], text) for mark, text in lines if mark.endswith("|") and mark != "|"), begun)


def stored_case(name: str, lines: List[Tuple[str, str]]) -> Stored:
    """Returns the case with a name and these lines."""
    parts = gathered(lines, dict.fromkeys(("$", "by", ">", "", "!", "?"), ""))
    script, out, err = (encoded(parts[mark]) for mark in (">", "", "!"))
    files = {path: encoded(text) for path, text in files_in(lines, {}).items()}
    return Stored(name, shlex.split(parts["$"])[1:], script, files, out, err, int(parts["?"] or "0"), parts["by"].split())


def stored(name: str = "cases.txt") -> List[Stored]:
    """Returns the cases of a file of tests/, else those of the program."""
    return [stored_case(title, marked(OWN_LINE, lines)) for title, lines in stored_blocks(name)[1]]


def of_folder(name: str) -> Stored:
    """Returns the case of a folder of examples/."""
    folder = os.path.join(EXAMPLES, name)
    args, script, out, err, status, how = (part(folder, one) for one in PARTS)
    files = [name for name in sorted(os.listdir(folder)) if name not in PARTS and os.path.isfile(os.path.join(folder, name))]
    return Stored(name, args.decode().splitlines(), script, {name: part(folder, name) for name in files}, out, err,
                  int(status or b"0"), how.decode().split())


def examples() -> List[Stored]:
    """Returns the cases of examples/."""
    return [of_folder(entry.name) for entry in sorted(os.scandir(EXAMPLES), key=lambda entry: entry.name) if entry.is_dir()]


def named() -> List[Tuple[str, Stored]]:
    """Returns all cases with names that differ."""
    return [(case.name, case) for case in stored()] + [(f"example_{case.name}", case) for case in examples()]
