"""The page of a film in a browser: the blocks of tests/film.txt, and what these can't show. Expected values are those of the pages
of docs/."""

import json
import os
import re

from tests.cases import part
from tests.film_blocks import BLOCKS, BlockCase
from tests.films import DEVICES, PageCase, about, class_page, random_session, shown_film
from tests.support import TOP, add_tests, read

from pp6600.front.keys import ROWS


class Blocks(BlockCase):
    """Every other block of tests/film.txt. tests/test_film_session.py has the others, in a browser of its own."""


add_tests(Blocks, Blocks.check, BLOCKS[::2])


class Tables(PageCase):
    """What the page has of the pages of docs/, and they of it."""

    def test_one_table(self):
        """Each key of the table has its action, and docs/FILM.md names those that the panel lacks."""
        self.browser.open(shown_film("handshake"))
        keys, actions = self.value("[Object.values(page.store.state.keys.actions), Object.keys(page.moves.actions)]")
        self.assertEqual(set(keys), set(actions))
        named = set(re.findall("`(.*?)`", read("docs/FILM.md").split("## Keys")[1].split("\n## ")[0]))
        of_panel = {name for row in ROWS if row.panel for name in row.shown()}
        self.assertEqual({name for row in ROWS if row.page for name in row.shown()} - of_panel, named - {"?"})

    def test_links(self):
        """In the turn of a link of the pages its place changes."""
        for page in ("README.md", "docs/FILM.md"):
            for name, address in re.findall(r"films/([\w-]+)\.html(#turn=[0-7]+&place=[\w+]+)\)", read(page)):
                self.browser.open(shown_film(name), address)
                with self.subTest(page, film=name):
                    chosen, changed = self.value(
                        "(({ film, chosen }) => [chosen.name, film.changesOf(film.at).map(({ place }) => "
                        "place.name)])(page.store.state)")
                    self.assertIn(chosen, changed)

    def test_meanings(self):
        """What is said of an instruction or a directive is what docs/MACHINE.md or docs/ASSEMBLER.md says."""
        rows = [re.sub(r" \((P\d+(, )?)+\)|`", "", line) for page in ("MACHINE.md", "ASSEMBLER.md")
                for line in read("docs", page).splitlines() if line.startswith("| ")]
        said = {re.sub(r"^\| (\d\d(, \d\d)* \| )?", "", row).split(" | ")[0] + ": "
                + row.split(" | ")[-2 + row[2].isdigit()].rstrip(" |")
                for row in rows} | {re.sub(r"^\| ", "", row).split(" | ")[0] for row in rows}
        meanings = about(read(self.film("--source", "0", "examples/overwritten-loader/loader.pp")))["meanings"]
        self.assertEqual(set(), {text for name, one in meanings.items() if name[1:] != "x" for text in one.split("\n")} - said)


class Card(PageCase):
    def test_printed(self):
        """docs/card.html is one sheet of A4 on a printer."""
        self.browser.go(f"file://{os.path.join(TOP, 'docs', 'card.html')}")
        self.browser.wait_for("document.readyState === 'complete' && document.title")
        self.browser.paper(self.path("card.pdf"))
        data = part(self.folder, "card.pdf")
        self.assertEqual(1, len(re.findall(rb"/Type /Page\b(?!s)", data)))
        sizes = {tuple(round(float(size)) for size in found) for found in re.findall(rb"/MediaBox \[0 0 ([\d.]+) ([\d.]+)\]", data)}
        self.assertEqual({(595, 842)}, sizes)


class Lanes(BlockCase):
    def test_as_they_grow(self):
        """What is added at the end is in the lanes: they are as they are if all is drawn anew."""
        self.browser.open(self.film(*DEVICES), "#place=A+0")
        for line in [*random_session(7), *["STEP"] * 20, "BACK 3", "STEP 2"]:
            self.value(f"page.session.act({json.dumps([line])})")
            self.compare("is-as-drawn", None, "=", "yes")


class Screens(PageCase):
    """Each look in each size of windows, light and dark: nothing is wider or higher than the window, and the header is low. The
    variable SCREENS names a folder in which pictures of all stay; without it there are those of the first size."""

    SIZES = ((1280, 800), (1920, 1080), (1024, 768), (800, 600), (390, 844))
    FITS = """(() => { const { scrollWidth, scrollHeight } = document.documentElement;
      const header = document.querySelector("header").getBoundingClientRect();
      return [scrollWidth <= innerWidth && scrollHeight <= innerHeight, header.height / innerHeight]; })()"""

    def pictures(self, name, path, address, looks):
        folder = os.environ.get("SCREENS") or self.folder
        os.makedirs(folder, exist_ok=True)
        for width, height in self.SIZES:
            self.browser.look(width, height)
            self.browser.open(path, address)
            for look in looks:
                self.value(f"page.hands.look({look!r})")
                for dark in (False, True):
                    self.browser.look(width, height, dark=dark)
                    self.browser.wait_for("!page.session.client.isBusy")
                    self.value("new Promise((done) => requestAnimationFrame(() => setTimeout(done, 50)))")
                    picture = os.path.join(folder, f"{name}-{look}-{width}{'-dark' if dark else ''}.png")
                    with self.subTest(picture=os.path.basename(picture)):
                        fits, header = self.value(self.FITS)
                        self.assertTrue(fits)
                        self.assertLessEqual(header, 0.15 if width >= 1280 else 0.25)
                        if width == self.SIZES[0][0] or "SCREENS" in os.environ:
                            self.browser.picture(picture)
                            self.assertGreater(os.path.getsize(picture), 10000)

    def test_film(self):
        self.pictures("film", shown_film("overwritten-loader"), "#turn=405&place=M+0+106", ("debug", "projector"))

    def test_class(self):
        self.pictures("class", class_page(), "", ("class",))
