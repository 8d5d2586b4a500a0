"""A line that is being typed at the bottom of the panel."""

import re
from typing import List, Tuple

LAST_WORD = re.compile(r"\S*\s*$")
SAME = {"Ctrl-A": "Home", "Ctrl-E": "End"}  # keys that do what others do


class Prompt:
    """A line being typed, with the lines typed before. The kind is the action that began it."""

    def __init__(self, kind: str, asked: str, history: List[str]) -> None:
        self.kind, self.asked, self.history = kind, asked, history
        # those before and the new one, each as it was edited; and which is shown
        self.lines, self.at = [*history, ""], len(history)
        self.place = 0  # of the cursor

    @property
    def text(self) -> str:
        return self.lines[self.at]

    def shown(self) -> Tuple[str, str, int]:
        """Returns what is asked, the text, and the place of the cursor in it."""
        return self.asked, self.text, self.place

    def press(self, key: str) -> None:
        """Performs a key that edits the line, or shows the one typed before or after it."""
        if key in ("Up", "Down"):
            self.at = max(0, min(self.at + (1 if key == "Down" else -1), len(self.history)))
            self.place = len(self.text)
            return
        text, before, after = self.text, self.text[:self.place], self.text[self.place:]
        typed = before + key if len(key) == 1 else before
        parts = {"Left": (before[:-1], before[-1:] + after), "Right": (before + after[:1], after[1:]), "Home": ("", text),
                 "End": (text, ""), "Backspace": (before[:-1], after), "Delete": (before, after[1:]), "Ctrl-U": ("", after),
                 "Ctrl-K": (before, ""), "Ctrl-W": (LAST_WORD.sub("", before), after)}
        before, after = parts.get(SAME.get(key, key), (typed, after))
        self.lines[self.at], self.place = before + after, len(before)

    def keep(self) -> None:
        """Adds the line to those typed before."""
        if self.text and self.history[-1:] != [self.text]:
            self.history.append(self.text)
