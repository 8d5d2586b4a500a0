"""Reads the numbered facts of docs/MACHINE.md, and finds the marks of facts in comments, such as [M4, P1]."""

import collections
import re

MARKS = re.compile(r"\s*\[([MP]\d+(?:, [MP]\d+)*)\]")
FACT = re.compile(r"\*\*([MP])(\d+)\*\*")
COMMENT = re.compile(r"^\s*(?:--|//).*|\s(?:--|//) .*", re.M)
PAGE = "docs/MACHINE.md"

Fact = collections.namedtuple("Fact", "heading text")


def marks_in(text):
    """Returns the marks in the comments of a text, in their order."""
    return [mark for comment in COMMENT.findall(text) for marks in MARKS.findall(comment) for mark in marks.split(", ")]


class Facts:
    """The facts of a page by their marks: M for one of the manual's, P for one of this project's choices."""

    def __init__(self, text):
        self.facts, self.faults, last = {}, [], {"M": 0, "P": 0}
        for section in re.split(r"^## ", text, flags=re.M)[1:]:
            heading, starts = section.split("\n")[0], list(FACT.finditer(section))
            for start, end in zip(starts, [start.start() for start in starts[1:]] + [len(section)]):
                mark, letter = start[1] + start[2], start[1]
                if int(start[2]) != last[letter] + 1:
                    self.faults.append(f"{PAGE}: {mark} comes after {letter}{last[letter]}")
                last[letter] = int(start[2])
                paragraph = re.split(r"\n\n|\n- |\n1\. |\n  - ", section[start.end():end])[0]
                self.facts[mark] = Fact(heading, " ".join(re.sub(r"[*`]", "", paragraph).split()))

    def faults_of(self, book):
        """Yields each mark of a comment that is no fact, and each fact that no definition of the page names."""
        yield from self.faults
        for scope in book.sources.scopes.values():
            yield from (f"{scope.path}: {mark} is no fact of {PAGE}" for mark in scope.marks if mark not in self.facts)
        named = {mark for definition in book.entries for mark in definition.marks() + marks_in(definition.text)}
        yield from (f"{PAGE}: no definition of the page names {mark}" for mark in self.facts if mark not in named)
