"""Tests docs/DEFINITIONS.md by its text alone."""

import functools
import os
import re
import runpy
import sys

from tests.support import TOP, Case, read

sys.path.insert(0, os.path.join(TOP, "docs"))

# A definition on the page: its heading, its sentence, its code and what is said below it. Long code is not there.
ENTRY = re.compile(r"^### (`([^`]+)`.*)\n\n(.*)\n\n(?:Its [0-9]+ lines are in "
                   r".*\n|```(antt|rust)\n((?:(?!```).*\n)*)```\n)\n?((?:(?!###? |```).*\n)*)", re.M)
MOST_WORDS, MOST_OF_THE_THEOREM = 30000, 3500  # to scroll, and of docs/THEOREM.md
NOT_CODE = re.compile(r'"(?:\\.|[^"\\])*"|(?<!\S)(?:--|//)[^\n]*')
TOKEN = re.compile(r"[^\s(){};,\[\]]+")
NUMBER = re.compile(r"(?:0o)?[\d_]+")
LANGUAGE = set("""→ × = : . λ | _ ⊥ Type Unit record data where let in pub abbrev unfoldable module infix infixl infixr ghost
    mut enum struct const type crate Self Vec Option String bool u8 u16 u32 u64 usize""".split())


class Entry:
    """A definition as the page shows it."""

    def __init__(self, found):
        heading, self.name, self.sentence, language, code, self.said = found
        self.anchor = re.sub(r"[^\w -]", "", heading.lower()).replace(" ", "-")
        self.code = NOT_CODE.sub("", code)
        self.bound = bound_in(self.code) | set(re.findall(r"`([^`]+)`", self.said))
        if language == "rust":
            self.bound.update(re.findall(r"\w+", "".join(re.findall(r"^struct \w+<(.*?)>", code))))
            self.code = re.sub(r"[<>&]|::|'\w+", " ", self.code)
        own = r"^  (?:pub )?(\S+) :()" if language == "antt" else r"^    ([A-Z]\w*)|(\w+):"
        self.names = parts(self.name) | {name for found in re.findall(own, code, re.M) for name in found}

    def used(self):
        """Returns the names in the code: of `a.b` and `a.` only a."""
        tokens = [token for token in TOKEN.findall(self.code) if not NUMBER.fullmatch(token)]
        return {token if token in self.bound else token.split(".")[0].rstrip(":") or "." for token in tokens}


def parts(name):
    """Returns the last part of a name, or each part of an operator, beside itself."""
    return {name, name.split(".")[-1], *name.split("◌")}


@functools.lru_cache(None)
def printed_page():
    """Returns the page to print, which is not tracked."""
    return runpy.run_path(os.path.join(TOP, "docs", "definitions.py"))["made"](TOP)[0]["docs/definitions.html"]


def bound_in(code):
    """Returns the names that a definition binds: arguments, those of λ and `let`, labels, and the variables of patterns."""
    groups = re.findall(r"λ ((?:[^.]|\.(?=\S))*?)\.\s", code) + re.findall(r"[({]([^(){}:=]+) :", code)
    groups += re.findall(r"\blet (\S+)", code) + re.findall(r"(?<!\S)(\S+) = ", code)
    patterns = " ".join(re.findall(r"^(\S.*?) =(?: |$)", code, re.M))
    return set(TOKEN.findall(" ".join(groups))) | {name for name in TOKEN.findall(patterns) if not name[0].isupper()}


class Page(Case):
    """The page as it is in the repository."""

    @classmethod
    def setUpClass(cls):
        cls.text = read("docs", "DEFINITIONS.md")
        cls.entries = list(map(Entry, ENTRY.findall(cls.text)))

    def test_every_name_is_there(self):
        """Each name of each definition is on the page, in its list of words of the kit, or bound where it is used."""
        kit = re.findall(r"^\| `([^`]+)` \| ", self.text.split("\n## The words of the kit\n")[1], re.M)
        known = LANGUAGE.union(*(parts(name.replace("\\|", "|")) for name in kit), *(entry.names for entry in self.entries))
        for entry in self.entries:
            with self.subTest(entry.name):
                self.assertEqual(set(), entry.used() - known - entry.bound)

    def test_order(self):
        """The theorem comes first, and each definition is used by a contract, or by a definition above it."""
        found = re.findall(r'<h3 id="([^"]+)">.*?Used by (?:<a href="#([^"]+)"|(the contract))', printed_page(), re.S)
        above = {"the contract"}
        for place, user, contract in found:
            with self.subTest(place):
                self.assertIn(user or contract, above)
            above.add(place)
        self.assertEqual([entry.anchor for entry in self.entries], [place for place, *_ in found])
        self.assertEqual("IsRun", self.entries[0].name)

    def test_words(self):
        """The page can be scrolled, and the theorem can be read at once."""
        self.assertLess(len(self.text.split()), MOST_WORDS)
        self.assertLess(len(read("docs", "THEOREM.md").split()), MOST_OF_THE_THEOREM)

    def test_theorem(self):
        """What docs/THEOREM.md shows of the sources is there, and its tables name each field of the two records."""
        source, page = read("crates", "pp_program", "specs", "Run.antt"), read("docs", "THEOREM.md")
        shown, = re.findall(r"^```antt\n(.*?)^```", page, re.M | re.S)
        self.assertIn(shown, source)
        self.assertEqual("IsRun", re.match(r"pub record (\w+)", shown)[1])
        of_run, of_whole = page.split("\n## IsRun in full\n")[1].split("\n## ")[0].split("\nA whole `course` is ")
        for name, table in (("IsRun", of_run), ("IsWhole", of_whole)):
            fields = re.findall(r"^  pub (\w+) :", source.split(f"pub record {name} ")[1].split("pub record")[0], re.M)
            self.assertLess(3, len(fields))
            for field in fields:
                self.assertRegex(table, rf"(?m)^\| [^|]*`{field}`", field)

    def test_links_of_the_printed_page(self):
        """Each link leads to a place of the page or to a file, and each place is there once."""
        printed = printed_page()
        places, links = re.findall(r' id="([^"]+)"', printed), re.findall(r' href="([^"#]*)(?:#([^"]*))?"', printed)
        self.assertEqual(sorted(set(places)), sorted(places))
        self.assertEqual(set(), {place for path, place in links if not path} - set(places))
        self.assertEqual([], [path for path, _ in links if not os.path.exists(os.path.join(TOP, "docs", path))])

    def test_count(self):
        self.assertIn(f"all {len(self.entries)}.", " ".join(self.text.split()))

    def test_facts(self):
        """Each mark on the page is a fact of docs/MACHINE.md below the heading that its link has, and of the manual if it is M."""
        facts = {}
        for section in re.split(r"^## ", read("docs", "MACHINE.md"), flags=re.M)[1:]:
            heading = section.split("\n")[0].lower().replace(" ", "-")
            facts.update(dict.fromkeys(re.findall(r"^(?:- )?\*\*([MP]\d+)\*\*", section, re.M), heading))
        found = re.findall(r"\[([MP]\d+)\]\(MACHINE\.md#([\w-]+)\)", self.text)
        self.assertEqual(facts, dict(found))
        self.assertLess(100, len(found))
        kinds = dict(re.findall(r"^\| \*\*([MP](?:1|4\*\* \(invented\)))[*, .MP0-9]+ \| is (.*?)[,:]", read("docs", "MACHINE.md"),
                                re.M))
        self.assertEqual(["M1", "P1", "P4** (invented)"], list(kinds))

    def test_facts_in_the_margin(self):
        printed = printed_page()
        for mark, text in (("M16", "Channel 14 is the real-time clock."),
                           ("P12", "A wait changes nothing of the processor, not even P")):
            self.assertRegex(printed, rf'<div class="facts">.*<a href="MACHINE.md#channels" title="{text}[^"]*">{mark}</a>.*</div>')

    def test_constructors(self):
        """A name that several types have is one constructor of one type wherever it is used."""
        for name in ("Cell", "Central", "Register", "RegA", "FrameWord"):
            uses = [line for entry in self.entries for line in entry.code.splitlines() if re.search(rf"(?<![\w.]){name}\b", line)]
            self.assertEqual([], [line for line in uses if not re.match(rf"\s+{name}( [:{{]|,)", line)], name)

    def test_layout(self):
        """What a case of a chain of conditions gives is indented below its condition."""
        code = self.text.split("\n### `reader_step`\n")[1].split("```")[1]
        self.assertEqual(7, code.count(" then\n        (Channel"))
        self.assertNotIn(" then\n    (Channel", code)
