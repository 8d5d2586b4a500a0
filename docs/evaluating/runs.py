"""Asks of a run that `program` prescribes whether it is an IsRun: of a program that answers each line before it reads on, with
files and standard input that are read to their ends, and with calls of which none fails.

A definition may ask for values that it does not compute. What they are in such a run, its witnesses, is said here.
"""

import operator
from typing import Any, Dict, List, Tuple

from evaluating.kit import NONE
from evaluating.lists import NIL, Stuck, items, listed

# What each device shows of itself to contracts, before a run.
HOST = {"known_words": NONE, "known_files": lambda path: NONE, "log": NIL, "failure_count": 0}
SOURCE = {"rest": NONE, "given": NIL, "ended": False, "calls": NIL, "failure_count": 0}
SINK = {"text": {"bytes": NIL, "held": ("Some", NIL)}, "failure_count": 0}
SHOWN = [{name: operator.itemgetter(name) for name in device} for device in (HOST, SOURCE, SINK, SINK)]
PIECE = 4096  # bytes that a read of standard input asks for


class Run:
    """What a run was given, what its words mean, its course, and what it read of standard input."""

    def __init__(self, definitions: Any, given: dict, means: tuple, course: dict, typed: bytes):
        self.definitions, self.given, self.means, self.course, self.typed = definitions, given, means, course, typed

    def events(self) -> List[tuple]:
        """Returns what the host logs."""
        found: List[tuple] = []
        for file in items(self.course["opened"]):
            _, *content = self.given["files"](file["kind"])
            found.append(("Event.Opened" if content else "Event.Missing", file["kind"], file["path"]))
            found += [("Event.Closed", one, True) for one in content]
        return found

    def answers(self, read: bytes) -> Any:
        """Returns the answers to the lines that have ended in these bytes."""
        ended = read[:read.rfind(b"\n") + 1]
        if ended == self.typed:
            return self.course["answers"]
        return self.definitions.call("program", {**self.given, "input": listed(ended)}, self.means)["answers"] if ended else NIL

    def reads(self) -> Tuple[Any, Any]:
        """Returns the dialogue before each read of standard input, and what each returned, the latest first."""
        pieces = [self.typed[at:at + PIECE] for at in range(0, len(self.typed), PIECE)] + [b""]
        before = [self.typed[:at * PIECE] for at in range(len(pieces))] if self.course["reads_input"] else []
        dialogues = [{"read": listed(read), "written": self.answers(read)} for read in before]
        return listed(dialogues[::-1]), listed([("Some", listed(piece)) for piece in pieces[:len(before)]][::-1])

    def outside(self, events: Any = NIL, reads: Any = (NIL, NIL), texts: Any = (NIL, NIL), typed: Any = NIL,
                ended: bool = False) -> dict:
        """Returns what is outside of the run, before it or with all of this after it."""
        output, errors = ({**SINK, "text": {"bytes": text, "held": ("Some", text)}} for text in texts)
        source = {**SOURCE, "given": typed, "ended": ended, "calls": reads[1]}
        terminal = {"source": {"now": source}, "output": {"now": output}, "log": {"at_reads": reads[0]}}
        return self.definitions.call("outside_of", *SHOWN, {**HOST, "log": events}, terminal, errors)

    def witnesses(self, reads: Tuple[Any, Any], typed: Any) -> Dict[str, Any]:
        """Returns the witnesses: of a record its data, and of data the constructor and what it takes."""
        has_read, asked = self.course["reads_input"], self.means[1]
        loaded = [self.definitions.call(f"{name}_at", asked[name], self.given["files"]((f"FileKind.{name.title()}",)))[1]
                  for name in ("deck", "panel")] if has_read else []
        start = self.definitions.call("session_with", asked, *loaded)[1] if has_read else None
        return {
            "IsRun": lambda *_: {"given": self.given, "readings": self.given["files"], "typed": typed, "course": self.course,
                                 "ended": {"files": lambda kind: True, "input": has_read}},
            "IsWhole": lambda *_: {"meaning": self.means},
            "IsInOrder": lambda *_: ("OnTime", {"asked": asked, "start": start}) if has_read else ("Unread", {}),
            "IsStart": lambda *_: dict(zip(("cards", "panel"), loaded)),
            "ReadsOnTime": lambda *_: dict(zip(("newer", "calls"), reads)),
            "IsOnTime": lambda start, first, now: {"bytes": now["read"]}}

    def check(self, output: Any, errors: Any, status: int) -> None:
        """Fails if this run, which writes these texts and has this exit status, is none."""
        reads, typed = self.reads(), listed(self.typed)
        before = self.outside()
        after = self.outside(listed(self.events()), reads, (output, errors), typed, self.course["reads_input"])
        self.definitions.witnesses = self.witnesses(reads, typed)
        try:
            is_run = self.definitions.call("IsRun", before, after, status)
        except Stuck:  # one way to fulfil it can't be computed, and the others do not hold
            is_run = False
        if not is_run:
            raise Stuck("a run that is no IsRun")
        if status < 2 and not self.definitions.call("AreEnded", self.course, self.definitions.witness("IsRun")["ended"]):
            raise Stuck("a run with this status that did not read to the end")
