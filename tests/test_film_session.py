"""Tests what is done in the page of a film beside tests/film.txt: origins in random sessions, and devices. Expected values are
those of docs/FILM.md, and of the program and the tools for the same lines."""

import json
import random

from tests.film_blocks import BLOCKS, BlockCase
from tests.films import DEVICES, PageCase, about, random_session, shown_film
from tests.support import add_tests, program, read, tool

from pp6600 import Attached, Console
from pp6600.devices.console_display import ConsoleDisplay
from pp6600.devices.options import script_with
from pp6600.devices.pictures import svg
from pp6600.front.film.device_pictures import moments_of

# In the page: of each line of the origin of a place at the end of the film the place and number, and the turn.
PAGE_LINES = """(([name]) => { const { film } = page.store.state, rows = m_machine_origins.originLines(film, film.placeNamed(name));
  return rows.map(({ step, text }) => [text.split(":")[0], step.moment > 0 ? film.turn[step.moment] : 0]); })"""


class Blocks(BlockCase):
    """Every other block of tests/film.txt."""


add_tests(Blocks, Blocks.check, BLOCKS[1::2])


class SessionCase(PageCase):
    def act(self, *lines):
        """Performs lines in the page."""
        self.value(f"page.session.type({json.dumps(lines)})")


class RandomSessions(SessionCase):
    def test_origins(self):
        """The page and the tool find the same steps."""
        for seed in range(6):
            lines, choose = random_session(seed), random.Random(seed)
            script = "".join(f"{line}\n" for line in lines)
            self.browser.open(self.film(*DEVICES, script=script, status=None))
            places = [f"M {choose.randrange(3)} {choose.randrange(0o100):o}" for _ in range(6)]
            places += [f"C {choose.randrange(0o400):o}" for _ in range(3)]
            for place in (*places, *(f"{kind} {choose.randrange(3)}" for kind in "APQ"), "H 5", "H 12", "XP 0"):
                wanted = self.tool_lines(script, place)
                if len(wanted) < 0o40:  # the page has at most so many steps
                    with self.subTest(seed=seed, place=place):
                        self.assertEqual(wanted, [tuple(line) for line in self.value(f"{PAGE_LINES}({json.dumps([place])})")])

    @staticmethod
    def tool_lines(script, place):
        """The places, numbers and turns that the tool has."""
        found = []
        for line in tool("origin", *DEVICES, *place.split(), script=script).out.splitlines():
            head, _, rest = line.partition(", NOW ")[0].strip().partition(" TURN ")
            found.append((head.removesuffix(" START"), int(rest.split()[0], 8) if rest else 0))
        return found


class Devices(SessionCase):
    """Devices of one's own: their replies are in the script, and what they show is in the page."""

    PICTURE = "document.querySelector('.pictures .picture').innerHTML"
    SAID = "(document.querySelector('.pictures p')?.textContent ?? '')"

    # FNC 7001, ACN, LDN 7, OAM 0112, FJM *, DCN, UJN 0100, and seven words
    SCRIPT = ("SET M 0 100 7710 7001 7410 1407 7310 112 6610 106\nSET M 0 110 7510 366 6100 7200 1411 2425 102 304\n"
              "SET M 0 120 506\nSET P 0 100\nSTEP 300\nBACK 60\nSTEP 20\nSET M 0 114 555\nSTEP 400\nBACK 150\nFORWARD 30\n")

    def pictures(self):
        """Returns the picture of the session after each of its lines, turn by turn."""
        session = Attached([program()], [ConsoleDisplay()])
        self.addCleanup(session.close)
        found = []
        for line in self.SCRIPT.splitlines():
            is_step = line.startswith("STEP")
            for one in ["STEP"] * int(line.split()[1], 8) if is_step else [line]:
                session.act(one)
                picture = svg(session.devices[0].picture(session.state()))
                found += [picture] if is_step or line.startswith(("BACK", "FORWARD")) else []
        return found

    def test_console_display(self):
        """docs/FILM.md: each turn and each step back is a moment with the picture of the session, and so is each reply, which
        changes none; beyond the script the page says that it has none."""
        words, wanted = [program()], self.pictures()
        lines = script_with(words, [ConsoleDisplay()], self.SCRIPT.encode())[0].decode().splitlines()
        with Console(words) as console:
            answers = [answer for answer, _ in moments_of(console, lines)]
        moments = [moment for moment, answer in enumerate(answers, 1) if answer.startswith(("TURNS", "BACK", "FORWARD"))]
        self.assertEqual((len(moments), True), (len(wanted), len(set(wanted)) > 5))
        self.browser.open(self.film("--device", "console_display@10", script=self.SCRIPT))
        self.assertEqual(len(answers), self.value("page.store.state.film.count - 1"))
        shown = list(zip(moments, wanted))
        for at, picture in [*random.Random(1).sample(shown, 20), *shown[-5:]]:
            with self.subTest(moment=at):
                self.value(f"page.moves.moveTo({at})")
                text = json.dumps("".join(picture.splitlines()))
                self.assertTrue(self.value(f"((one) => {{ one.innerHTML = {text}; return one.innerHTML === {self.PICTURE}; }})"
                                           "(document.createElement('div'))"))
                self.assertEqual("", self.value(self.SAID))
        self.value(f"page.moves.moveTo({len(answers)})")
        self.act("STEP 1")
        self.assertEqual("this page has no ConsoleDisplay: this is what it showed at the end of the script", self.value(self.SAID))
        self.value("page.exercises.show('begun', { script: 'STEP 5\\n', deck: '', panel: '' })")
        self.assertEqual(6, self.value("page.store.state.film.count"))
        self.assertEqual(["this page has no ConsoleDisplay: it is known for the script of the file alone", ""],
                         self.value(f"[{self.SAID}, {self.PICTURE}]"))

    def test_saved_script(self):
        """A script that was saved has the replies: they play, once, with the same pictures; and so they do in a page that was
        saved."""
        options = "--device", "console_display@10"
        first = about(read(shown_film("console-display")))
        path = self.film(*options, script=first["files"][0]["bytes"])
        self.assertEqual((first["files"][0]["bytes"], first["pictures"]),
                         (about(read(path))["files"][0]["bytes"], about(read(path))["pictures"]))
        self.browser.open(path)
        self.act("STEP 12")
        self.browser.save_into(self.folder)
        self.value("page.sharing.savePage()")
        self.browser.open(self.saved("session.html"))
        self.assertIn("this is what it showed at the end of the script", self.value(self.SAID))
        self.value("page.moves.moveTo(page.store.state.film.about.pictures.moments - 1)")
        self.assertEqual(["", True], self.value(f"[{self.SAID}, {self.PICTURE}.length > 1000]"))
