"""The tools, by rules that no single transcript of tests/sessions shows. Expected values are those of the pages."""

import io
import random
import re
import sys
from unittest import mock

from tests.fixtures import at_terminal
from tests.generator import BUSY, JUNK, Maker
from tests.support import TOOLS, Case, names_of_codes, program, read, run, tool

from pp6600.front.commands import waits
from pp6600.shell import progress

DEVICES = ("--central", "32", "--panel", "examples/dead-start/panel", "--deck", "examples/read-a-deck/deck")


def busy_script(seed):
    return "".join(f"{line}\n" for line in Maker(seed, BUSY).script())


class Tables(Case):
    """What the tools have of the tables of docs/MACHINE.md."""

    def test_names_of_the_codes(self):
        script = "".join(f"SET M 0 0 {code:02o}17 0\nSET P 0 0\nSET A 0 0\nSTEP 12\n" for code in range(0o100))
        got = tool("trace", "--processor", "0", script=script).out
        self.assertEqual(names_of_codes(), re.findall(" ([A-Z]{3}) A ", got))

    def test_display_code(self):
        rows = re.findall(r"^[0-7]  (.{15})$", read("docs", "MACHINE.md"), flags=re.M)
        symbols = "".join(row[::2] for row in rows)
        words = "".join(f"{first:02o}{first + 1:02o} " for first in range(0, 64, 2)).split()
        self.assertEqual(words, tool("words", "--", symbols).out.split())
        self.assertEqual(f"{symbols}\n", tool("words", "--back", *words).out)

    def test_each_reason(self):
        """Whatever is refused, there is a reason, and each form that is named is on the card."""
        chance = random.Random(6600)
        words = ("SET", "BACK", "FORWARD", "WATCH", "DEADSTART", "DUMP", "A", "C", "H", "XP", "0", "3", *JUNK[:-1])
        lines = [" ".join(chance.choice(words) for _ in range(chance.randrange(1, 7))) for _ in range(1000)]
        got = at_terminal("show", self.file("".join(f"{line}\n" for line in lines if "STEP" not in line)))
        refused = re.findall(r"^> (.*)\nERR 0[1-4] .*\n(.*)$", got, flags=re.M)
        self.assertGreater(len(refused), 500)
        self.assertEqual([], [line for line, reason in refused if not reason.startswith("  ")])
        card, forms = read("docs", "CARD.md"), set(re.findall(r"(?:the form is|, or|,) ([A-Z]+ [^,;]*?)(?=,| or |;|$)", "\n".join(
            reason for _, reason in refused if "the form is" in reason), flags=re.M))
        self.assertEqual([], [form for form in forms if f"`{form}`" not in card and f"`{form.partition(' ')[2]}`" not in card])


class Answers(Case):
    def test_each_answer_once(self):
        """show has each answer of the simulator, and both end with the same status."""
        for seed in range(6):
            session = Maker(seed).session()
            lines = b"".join(line + b"\n" for line in session.lines).decode("latin-1")
            direct, got = run(program(), script=lines), tool("show", script=lines)
            answers = "".join(f"{line}\n" for line in got.out.split("\n")[:-1] if not line.startswith(">"))
            with self.subTest(seed=seed):
                self.assertEqual((direct.out, direct.status, direct.status), (answers, got.status, got.err.count("\n")))

    def test_lines_in_effect(self):
        """Those that lead to the last turn come to the machine of the script."""
        what = ("M 0 0 7777", "M 1 0 7777", "M 2 0 7777", "PP 0", "H", "XP", "C 0 777", "CR", "LP")
        dumps = "".join(f"DUMP {one}\n" for one in what)
        for seed in range(6):
            script = busy_script(seed) + "STEP\n"
            turns = re.search("^ TURN ([0-7]+)", tool("state", *DEVICES, script=script).out, flags=re.M)[1]
            shown = tool("show", "--turn", turns, *DEVICES, script=script).out
            lines = "".join(f"{line}\n" for line in re.findall("^> (.*)$", shown, flags=re.M))
            ends = [run(program(), *DEVICES, script=text + dumps).out.splitlines()[-0o4040:] for text in (script, lines)]
            with self.subTest(seed=seed):
                self.assertEqual(*ends)

    def test_last_turns_that_touch_a_channel(self):
        """They are the last of all that do."""
        for seed in range(5):
            script, choose = busy_script(seed), random.Random(seed)
            words = [*DEVICES, "--channel", choose.choice(("5", "6", "12", "13", "14")), "--from", f"{9 * seed + 1:o}"]
            touches = tool("trace", *words, script=script).out.splitlines()
            for count in (2, 0o1000):
                with self.subTest(seed=seed, count=count):
                    got = tool("trace", *words, "--last", f"{count:o}", script=script).out
                    self.assertEqual(touches[-count:], got.splitlines())

    def test_three_forms(self):
        """Words that were loaded from a file of each form are saved as the same file."""
        choose = random.Random(1)
        words = [choose.randrange(0o10000) for _ in range(0o1001)]
        texts = {"": "".join(" ".join(f"{word:04o}" for word in words[at:at + 5]) + "\n" for at in range(0, len(words), 5)),
                 "--packed": bytes.fromhex("".join(f"{word:03x}" for word in words) + "0").decode("latin-1"),
                 "--two-bytes": b"".join(word.to_bytes(2, "big") for word in words).decode("latin-1")}
        for option, text in texts.items():
            lines = tool("load", *option.split(), "3", "6777", script=text).out
            saved = tool("save", *option.split(), "3", "6777", "7777", script=lines, encoding="latin-1").out
            with self.subTest(option):
                self.assertEqual(text.split() if not option else text, saved.split() if not option else saved)

    def test_how_far(self):
        """A search at a terminal says how far it is, and clears that before it writes what it finds; elsewhere it says nothing."""
        class Terminal(io.StringIO):
            def isatty(self):
                return True

        for stream, wanted in ((Terminal(), "\rat turn 5 of 100\x1b[K\r\x1b[K"), (io.StringIO(), "")):
            with mock.patch.multiple(progress, PATIENCE=-1, BETWEEN=60), mock.patch.object(sys, "stderr", stream):
                shown = progress.Progress(0o100)
                found = list(shown.passed(f"{turn}" for turn in (5, 6) if not shown.show(turn)))
            self.assertEqual((["5", "6"], wanted), (found, stream.getvalue()))

    def test_each_search_says_how_far(self):
        """`waits` says it also of the turns after the end, which it tries, and `compare` of those whose ways it compares."""
        script = self.file("SET M 0 100 7205 300\nSET P 0 100\nSTEP 100\n")
        for words, turn in ((("waits", script), 0o10100), (("compare", "--path", script, script), 0)):
            with self.subTest(words), mock.patch.object(waits, "MOST_TURNS", 0o10000), mock.patch.object(progress.Progress,
                                                                                                         "show") as shown:
                self.assertEqual(0, tool(*words).status)
                self.assertIn(mock.call(turn), shown.mock_calls)

    def test_help_and_version(self):
        for name in TOOLS:
            with self.subTest(name):
                got = tool(name, "--help")
                self.assertEqual(("", 0, "usage: "), (got.err, got.status, got.out[:7]))
                self.assertEqual((f"{name} {read('VERSION')}", "", 0), tool(name, "--version"))
