"""Tests docs/evaluate: the definitions, run, say what the program does.

Its own check computes the worked rows of crates/pp_worked as statements about data, and performs the cases of tests/cases.txt and
of examples/. Random sessions are performed by the definitions and by the program, and all that is written is compared. Which faults
in the definitions this would find is what python3 -m tests.slips says, which takes longer.
"""

import gc
import itertools
import os
import re
import runpy
import shlex
import shutil
import sys
import threading

from tests import slips
from tests.cases import stored
from tests.support import TOP, Case, add_tests, called, names_of_codes, program, read, run, write

sys.path.insert(0, os.path.join(TOP, "docs"))
from book.pages import Book, Text  # noqa: E402
from evaluating.asking import Definitions, definitions_of, performed  # noqa: E402
from evaluating.checking import faults_of_cases  # noqa: E402
from evaluating.examples import faults_of, load  # noqa: E402

EVALUATE = os.path.join(TOP, "docs", "evaluate")
RANDOM = int(os.environ.get("PP6600_EVALUATED", "20"))  # random sessions
MOST_TURNS = 1500  # of a random session


def evaluate(*words, script=""):
    """Runs docs/evaluate in this process."""
    limit = sys.getrecursionlimit()
    try:
        return called(lambda: runpy.run_path(EVALUATE, run_name="__main__"), EVALUATE, *words, script=script)
    finally:
        sys.setrecursionlimit(limit)
        threading.stack_size(0)
        gc.enable()


def typed(command):
    """Returns what a command of the shell writes: in this process if it is docs/evaluate alone."""
    name, *words = shlex.split(command)
    return (evaluate(*words) if name == "docs/evaluate" else run("bash", "-c", command)).out


class Sessions(Case):
    """Sessions by the definitions and by the program. tests/test_python_program.py and test_random.py compare it with
    pp6600-python."""

    def test_random(self):
        cases = map(slips.with_outcome, itertools.islice(slips.random_cases(MOST_TURNS), RANDOM))
        self.assertEqual([], slips.deep(lambda: list(faults_of_cases(definitions_of(TOP), cases))))


class Command(Case):
    """The command docs/evaluate."""

    def check(self, case):
        done = evaluate(*case.words, script=case.script.decode())
        self.assertEqual((case.out.decode(), case.err.decode(), case.status), done)

    def test_steps(self):
        """The worked row of a block that overwrites its own return address."""
        steps = evaluate("--steps", "4", "6110", "7776", "A=1000", "M 10=2", "C 1000=00010002000300040005").out.splitlines()
        self.assertEqual(("1: P = 7776, Q = 0002, PHASE = 6110, M 0000 = 0101", "4: P = 0004, PHASE = 0000"), (steps[0], steps[3]))

    def test_full_output(self):
        done = run("bash", "-c", f"{shlex.quote(EVALUATE)} 1 >/dev/full; echo status $?")
        self.assertEqual(("status 2\n", "docs/evaluate: No space left on device\n"), done[:2])

    def test_route(self):
        """The commands of the route of one hour do what they are there for."""
        route = read("docs", "DEFINITIONS.md").split("\n## A route of one hour\n")[1].split("\n## ")[0]
        commands = re.findall(r"^```text\n(.*?)\n```", route, re.M | re.S)
        self.assertEqual(["0", "OK", "P = 0101", "1: P = 7776, Q = 0002, PHASE = 6110, M 0000 = 0101"],
                         [typed(command).split("\n")[0] for command in commands])

    def test_route_of_the_theorem(self):
        """Each step of the route of 25 minutes shows what it is there for. The prover is not asked."""
        route = read("docs", "THEOREM.md").split("\n## A route of 25 minutes\n")[1].split("\n## ")[0]
        route = route.replace("/tmp/", self.room() + "/")
        begin, compare, differ, slip, mutant, _, without = re.findall(r"^```text\n(.*?)\n```", route, re.M | re.S)
        answers = "OK\nOK\nTURNS 13 SLOT 01\nPP 00 P 0102 A 000005 Q 0000 PHASE 0000 SLOT 01\nBACK 1 SLOT 00\n" \
                  "PP 00 P 0101 A 000005 Q 0000 PHASE 0000 SLOT 00\n"
        shell = ["bash", "-c", f"cd {shlex.quote(TOP)}; {begin}\n{compare.splitlines()[0]}"]
        self.assertEqual((answers, "", 0), run(*shell))
        differs = differ.replace("./pp6600", shlex.quote(program()))
        self.assertEqual(("the same\n", "", 0), run("bash", "-c", f"cd {shlex.quote(TOP)}; {differs}"))
        # the copy has what is not committed, too, but hardly a case: a worked row finds the slip
        first, *planted = slip.splitlines()
        for name in ("crates", "docs", os.path.join("examples", "first-steps"), "tests", os.path.join("tools", "pp6600")):
            shutil.copytree(os.path.join(TOP, name), os.path.join(first.split()[2], name), ignore=shutil.ignore_patterns("out"))
        shutil.copy(os.path.join(TOP, "crates.txt"), first.split()[2])
        write(os.path.join(first.split()[2], "tests", "cases.txt"))
        done = run("bash", "-c", "\n".join(planted))
        self.assertEqual((1, ""), (done.status, done.err))
        self.assertRegex(done.out, "^worked row .* does not hold\n")
        self.assertIn("\nold: ", run("bash", "-c", f"cd {TOP}; {mutant}").out)
        self.assertEqual("0\n", typed(without))

    def test_help(self):
        done = evaluate("--help")
        self.assertIn("no proof", done.out)
        self.assertEqual(done._replace(status=2), evaluate())

    def test_words(self):
        """Words that fit together with no others end with how the command is used."""
        for words in (["--text"], ["--step"], ["--steps", "0", "3520"], ["--check", "1"], ["--record", "1"]):
            with self.subTest(words):
                done = evaluate(*words)
                self.assertEqual(("", 2, 1), (done.out, done.status, done.err.count("error:")))

    def test_examples(self):
        """Each example of the page has the value that the page says, and each case has an example or is said to have none; the
        worked rows hold, and each stored case has its outcome. What is passed over is counted."""
        done = evaluate("--check")
        self.assertEqual(("", 0), (done.err, done.status), done.out)
        self.assertRegex(done.out,
                         r"\Acomputed: [0-9]{3,} examples, ([0-9]+) of ([0-9]+) worked rows, ([0-9]+) of ([0-9]+) cases\npassed "
                         r"over: .*\n\Z")

    def test_examples_as_typed(self):
        """Examples that are typed are shown as the page shows them."""
        examples = [one for own in load(read("docs", "examples.txt")).values() for one in own if one.text]
        self.assertEqual([one.value for one in examples[::9]], evaluate(*(one.text for one in examples[::9])).out.splitlines())


add_tests(Command, Command.check, [(case.name, case) for case in stored("evaluate.txt")])


RELATION = re.compile(r"(?:record|data) \w+ \((?!.*: Type 0\)).* : Type 0 where|\w+ : (?!Type 0 → Type 0\n).*→ Type 0\n", re.S)


class Relations(Case):
    """The statements of docs/DEFINITIONS.md."""

    def called_in_a_run(self):
        """Returns the names of the definitions that are called while a run with a deck and a panel is computed, and help."""
        deck, panel = self.file(b"1\n", "deck"), self.file(b"1 2 3 4 5 6 7 10 11 12 13 14\n", "panel")
        definitions, names = Definitions(TOP), set()

        def task():
            sys.setprofile(lambda frame, *_: names.add(frame.f_code.co_name))
            performed(definitions, ["--help"], bytes)
            performed(definitions, ["--deck", deck, "--panel", panel], lambda: b"SET A 0 5\n")
            sys.setprofile(None)
        slips.deep(task)
        return {one.name for one, function in definitions.functions.items() if function.name in names}

    def test_read_alone(self):
        """docs/definitions.txt names each that no run is asked for, and that tests/evaluate.txt does not compute."""
        front = read("docs", "definitions.txt")
        book = Book(definitions_of(TOP).sources, Text(front))
        relations = {one.name for chapter in book.chapters for one in chapter
                     if RELATION.match(re.sub("^(abbrev |unfoldable )?(pub )?", "", one.text.split("\n" + one.name)[0] + "\n"))}
        alone = set(re.findall(r"\[\[(?:\S+:)?(\w+)\]\]", front.partition("Nothing but the")[2].partition("Written by hand")[0]))
        typed_ones = " ".join(re.findall(r"^\$ .*", read("tests", "evaluate.txt"), re.M))
        self.assertEqual(alone, relations - self.called_in_a_run() - set(re.findall(r"\b(?:Is|Are)\w+", typed_ones)))


class Tables(Case):
    """The table of the instructions in docs/DEFINITIONS.md."""

    def test_rows(self):
        """It has the names of docs/MACHINE.md, and examples that were worked by hand."""
        row = re.compile(r"^\| ([0-7]{2}) \| ([A-Z]{3}) \| (\w+) \| `(.*)` \| (.*) \|$", re.M)
        rows = {code: rest for code, *rest in row.findall(read("docs", "DEFINITIONS.md"))}
        self.assertEqual([(f"{code:02o}", name) for code, name in enumerate(names_of_codes())],
                         [(code, name) for code, (name, *_) in rows.items()])
        self.check_rows(lambda code: tuple(rows[code][1:]),
                        ("03", ("NoAddress", "P := relative s.p i.d", "P = 0105")),
                        ("02", ("Memory", "P := cell_after i.address 1; Cell i.address := i.next", "P = 0501, M 0500 = 0102")),
                        ("44", ("Indirect", "Cell i.address := lower12 s.a", "M 0200 = 1003")),
                        ("74", ("NoAddress", "is_in Inactive i.d s.states: State i.d := Empty / nothing", "waits")))


class Examples(Case):
    """Faults that are planted in docs/examples.txt, and in a definition, are found."""

    def test_planted(self):
        text = read("docs", "examples.txt")
        example = re.search(r"^slot_step at_rest\n  = (.*)\n", text, re.M)
        other = example[0].replace(example[1], "[]")
        planted = ((example[0], other, f"slot_step at_rest is {example[1]}"),
                   ("== pp_rig/Turn:clock_step\n", "== pp_rig/Turn:clock\n",
                    "pp_rig/Turn:clock: no computable definition on the page"),
                   ("\nexit_of (Ok 1)\n  = 1\n", "\n", "pp_program/Program:exit_of: no line for the case status"),
                   ("\nends (", "\nend (", "end (codes \"OK\\n\") (Ok 0): can't compute end stands for nothing"))
        for old, new, _ in planted:
            self.assertEqual(1, text.count(old), old)
            text = text.replace(old, new)
        unread = slips.Slip("pp_console/Commands:back_answer", "nat_lt v.kept actions", "no_such_test v.kept actions")
        found = slips.deep(lambda: faults_of(TOP, text, unread.plant))
        wanted = [*(fault for *_, fault in planted), "pp_console/Commands:back_answer: can't be read"]
        self.assertEqual([], [fault for fault in wanted if fault not in found])


class Slips(Case):
    """The slips that python3 -m tests.slips plants fit the definitions."""

    def test_fit(self):
        """A slip changes one place of its definition, and uses only names that can be used there."""
        definitions = definitions_of(TOP)
        for slip in slips.slips():
            with self.subTest(slip.name):
                definition = definitions.named(slip.name)
                text = definition.text
                self.assertEqual(1, text.count(slip.old))
                slip.plant(definitions)
                definitions.kind_of(definition)(definitions, definition).whole()
                definition.text = text

    def test_one_is_found(self):
        """The worked rows find a sum that is minus zero."""
        found = slips.finds(next(slip for slip in slips.slips() if slip.name.endswith(":add18")), [])
        self.assertRegex(found, "^worked row ")
