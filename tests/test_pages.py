"""Tests that the pages name what is there: files, headings, calls, clauses, mutants, options, words of the console.

A name is what stands between backticks in the prose of a page, not in a block of code. Each of its words is an identifier of the
sources, definitions or proofs, a word of a program, a file or folder, or a word of OTHERS. A name with '::' has its parts in one
crate, and `Type::call` is a call of that type. A name after a word of KINDS is of that kind. A link has its file and its heading.
"""

import functools
import glob
import os
import re
import runpy
import sys

from tests.support import TOP, Case, blocks, read, run

PLACES = ("*.md", "docs/*.md", "crates/*/README.md", "targets/*.md", "examples/*.md", "exercises/*.md", "bench/*.md", "share/*.md")
PAGES = sorted(os.path.relpath(path, TOP) for place in PLACES for path in glob.glob(os.path.join(TOP, place)))
PROOFS = runpy.run_path(os.path.join(TOP, "docs", "proofs.py"))
CONTRACTS = PROOFS["contracts"]()
CRATES = [line.split(":")[0].split()[0] for line in read("crates.txt").splitlines()]

# What the repository does not define: words of the kit and of the system, keys, what is installed, and what recipes invent.
OTHERS = set("""ci crate doc lemma logic plant version specs proofs ghost prove inline auto using unfolding clause functions proof
    failed cat pip npx uname uninstall TO --anew --allow-holes --fix-imports --only --start --test Display Read Write File cd echo
    cp gz python3 tar zip Ctrl Shift Tab End Home WORD FILE FILE.html FUNCTION word /usr/local ~/.local ~/.pp6600_history PREFIX/bin
    PREFIX/libexec/pp6600/tools share/pp6600/exercises pp6600-VERSION-linux.tar.gz work.html
    libpp6600.so.1 PKG_CONFIG_PATH wasm-opt BigInt memory.grow grow XNAME SNAME OP redo crates/.checked /Q/NAME
    WHO Who slot_text kept_text mutants/who_shows_p.edit pp_console/who_shows_p pp6600_watched BLANK ABC""".split())
COMMENT_OR_TEXT = re.compile(r'//[^\n]*|--[^\n]*|b?("(?:\\.|[^"\\])*")')
OF_A_PROGRAM = re.compile(r"--?[a-z][a-z-]*|\b[A-Z][A-Z\d_]*\b|(?<=[\"'])\w+(?=[\"'])|(?<=def )\w+|(?<=class )\w+")
PATH = re.compile(r"(?=.*\w)[~\w.*-]*/[\w./*-]*|[\w*-]+\.(?:antt|edit|html|md|py|rt|txt)")
WORD = re.compile(r"(?<!\w)[A-Za-z_]\w*(?:-\w+)*(?:::\w+)*")
# n or aaaa for a number, a key as g106, a kit, its sum
PLAIN = re.compile(r"([A-Za-z])\1*|[a-z]\d+|rattle-kit-\w+|[a-f][\da-f]{15}")
LINK = re.compile(r"\]\(([^)#:\s]*)(?:#([^)\s]+))?[^)]*\)")
CONTRACT = re.compile(r"^- ((?:`[\w:]+`(?:, | and )?)+)(?: \(([^)]*)\))?:", re.M)
KINDS = {"clause": "clauses", "clauses": "clauses", "against": "clauses", "mutant": "mutants", "mutants": "mutants",
         "crate": "crates", "crates": "crates", "ghost words": "ghosts"}
KIND = re.compile(r"\b(" + "|".join(KINDS) + r")\s+\(?((?:`\w+`(?:,\s+|\s+and\s+)?)+)")
COUNT = re.compile(r"\b(?:\d[\d,]*|two|three|four|five|six|seven|eight|nine|ten|eleven|twelve|\w+teen|twenty)"
                   r"(?:\s+(?:of\s+)?[\w`-]+){0,2}?\s+"
                   r"(?:mutants|crates|theorems|functions|tests|lines\s+of\s+(?:code|Python|Rattle))\b")


def is_program(path):
    with open(os.path.join(TOP, path), "rb") as file:
        return (path.endswith((".py", ".mjs")) or file.read(2) == b"#!") and not path.endswith("test_pages.py")


class Known:
    """What there is: the words of each crate's sources, the words of programs and texts, and the names of each kind."""

    def __init__(self):
        self.files = {f"crates/{crate}/out" for crate in CRATES}
        for folder, folders, names in os.walk(TOP):
            # what a check leaves is not counted
            folders[:] = [name for name in folders if name not in (".git", "out", "__pycache__")]
            self.files |= {os.path.relpath(os.path.join(folder, name), TOP) for name in folders + names}
        self.paths = "\n".join(sorted(self.files))
        self.code, self.clauses, self.ghosts, self.words = {}, set(), set(), set(OTHERS)
        for path in self.files:
            if re.fullmatch(r"crates/.*\.(rt|antt)", path):
                self.add_source(path.split("/")[1], read(path))
            elif re.search(r"\.[ch]$", path):
                self.words.update(re.findall(r"\w+", read(path)))
            elif os.path.isfile(os.path.join(TOP, path)) and is_program(path):
                self.words.update(OF_A_PROGRAM.findall(read(path)))
        self.clauses |= self.ghosts
        self.calls = {(owner, call) for contracts in CONTRACTS.values() for *owners, call, _ in contracts for owner in owners}
        self.mutants = {os.path.basename(path)[:-len(".edit")] for path in self.files if path.endswith(".edit")}
        self.crates = set(re.findall(r"\w+", read("crates.txt")))
        names = {name for path in self.files
                 for name in (os.path.basename(path), "pp6600-" + os.path.basename(path), path[len("tests/"):-3])}
        self.words |= self.mutants | names | set().union(*self.code.values())

    def add_source(self, crate, text):
        bare = COMMENT_OR_TEXT.sub(" ", text)
        self.code.setdefault(crate, set()).update(re.findall(r"\w+", bare))
        self.clauses.update(re.findall(r"\b(?:ensures|requires)\*?\s+(\w+)\s*\{", bare))
        self.ghosts.update(re.findall(r"\bghost (\w+)\s*[:=]", bare))
        self.words.update(word for quoted in COMMENT_OR_TEXT.findall(text) for word in re.findall(r"[A-Z]+", quoted))


KNOWN = Known()


def is_path(path, page):
    """Whether a file or folder has this path. NAME, X, x and `*` stand for any name. On a crate's page src/ is that of the
    crate."""
    kept = re.sub(r"/out/.*", "/out", path.lstrip("./").strip("/"))
    ending = re.escape(re.sub(r"NAME|(?<![^/])[xX](?=[A-Z./]|$)", "*", kept)).replace(r"\*", "[^/]*") + r"(?:\.rt)?$"
    first, own = kept.split("/")[0], os.path.dirname(page)
    if first in ("src", "specs", "proofs", "must-fail", "mutants") and own.startswith("crates/"):
        ending = f"^{own}/{ending}"
    elif first in KNOWN.files and "/" in kept:
        ending = "^" + ending
    return first == "out" or re.search(ending if ending[0] == "^" else "(?:^|/)" + ending, KNOWN.paths, re.M) is not None


def is_word(word):
    """Whether a word of a name is known: itself, its parts between hyphens, or its parts between '::' in one crate."""
    if PLAIN.fullmatch(word) or word in KNOWN.words:
        return True
    *_, of_type, call = ["", *word.split("::")]
    if of_type[:1].isupper() and call[0].islower() and of_type not in OTHERS and (of_type, call) not in KNOWN.calls:
        return False
    if "::" in word:
        parts, crates = set(word.split("::")), [KNOWN.code.get(word.split("::")[0])]
        return any(parts <= names | OTHERS | parts & KNOWN.crates for names in (crates if crates[0] else KNOWN.code.values()))
    return "-" in word and all(map(is_word, word.split("-")))


def unknown(name, page):
    """Yields each word of a name that is not known."""
    for piece in () if name in KNOWN.words else name.split():
        option = re.match(r"--?[a-z][a-z-]*", piece)
        if piece in KNOWN.words:
            continue
        if option:
            yield from {option.group()} - KNOWN.words
        elif PATH.fullmatch(piece):
            yield from () if is_path(piece, page) else (piece,)
        else:
            yield from (word for word in WORD.findall(piece) if not is_word(word))


def prose(text):
    """Returns the text without its blocks of code and its indented lines."""
    return re.sub(r"^    .*", "", re.sub(r"^ *```.*?^ *```", "", text, flags=re.M | re.S), flags=re.M)


@functools.lru_cache(maxsize=None)
def anchors(text):
    """Returns what a link to each heading has after its '#': the words in small letters, with hyphens between them."""
    return {re.sub(r"[^\w -]", "", heading.lower()).replace(" ", "-") for heading in re.findall(r"^#+ (.+)$", prose(text), re.M)}


def faults(page, text):
    """Returns what is wrong with the names, links and counts of a page."""
    now = "" if page == "CHANGELOG.md" else prose(text)  # the history names and counts what was
    found = [f"no {word} for `{name}`" for name in re.findall(r"`([^`]+)`", now) for word in unknown(name, page)]
    found += [f"'{said}' is a count, which goes stale" for said in COUNT.findall(now)]
    found += [f"{name} is none of the {KINDS[kind]}" for kind, names in KIND.findall(now) for name in re.findall(r"`(\w+)`", names)
              if not PLAIN.fullmatch(name) and name not in getattr(KNOWN, KINDS[kind])]
    for path, anchor in LINK.findall(text) if not page.startswith("share/") else ():  # those of share/ are of an installation
        to = os.path.normpath(os.path.join(os.path.dirname(page), path)) if path else page
        is_there = to in KNOWN.files | {page, "."}
        if not is_there or to.endswith(".md") and anchor and anchor not in anchors(read(to) if path else text):
            found.append(f"no {path}{'#' if anchor else ''}{anchor}")
    return found


class Pages(Case):
    def test_names_and_links(self):
        for page in PAGES:
            with self.subTest(page):
                self.assertEqual([], faults(page, read(page)))

    def test_page_of_a_crate(self):
        """Its list of contracts has calls with clauses that they have, and each line of its examples is in a source."""
        for crate in CRATES:
            page = f"crates/{crate}/README.md"
            for calls, named in CONTRACT.findall(read(page)):
                for call in re.findall(r"`([\w:]+)`", calls):
                    with self.subTest(page, call=call):
                        has = PROOFS["clauses_of"](CONTRACTS, f"{crate}::{call}") or ()
                        self.assertLessEqual(set(re.findall(r"`(\w+)`", named)) or {""}, set(has))
            paths = [path for path in KNOWN.files if re.match(rf"crates/(?:{crate}|test_\w+)/src/.*\.rt$", path)]
            lines = {line.strip() for path in paths for line in read(path).splitlines()}
            shown = {line.strip() for block in blocks(page, "rust") for line in block.text.splitlines()}
            with self.subTest(page):
                self.assertEqual(set(), shown - lines - {""})
                self.assertTrue(read(page).startswith(f"# `{crate}`\n\n"))

    def test_layers(self):
        """docs/ARCHITECTURE.md names each crate but those for tests, of the theorems alone and the program, which has the name of
        all."""
        named = set(re.findall(r"`(\w+)`", read("docs/ARCHITECTURE.md").split("## The layers")[1].split("\n## ")[0]))
        self.assertEqual(set(), {crate for crate in CRATES if not crate.startswith("test_")} - named - {"pp6600", "pp_worked"})

    def test_what_scripts_make(self):
        """Texts, tables and pictures of the pages, and the colours of editors, are what their scripts make now."""
        for script in ("docs/proofs.py", "docs/card.py", "docs/definitions.py", "docs/drawings/draw.py", "docs/drawings/panel.py",
                       "share/colours"):
            with self.subTest(script):
                self.assertEqual(("", "", 0), run(sys.executable, os.path.join(TOP, script), "--check"))

    def test_numbers_of_drawings(self):
        """The numbers of session.svg and turn.svg, which are kept as they are, are those of the program in tests/cases.txt."""
        whole = read("tests", "cases.txt")
        for name in ("session", "turn"):
            case = whole.split(f"\n== drawing-of-a-{name}\n")[1].split("\n== ")[0]
            numbers = re.findall(r"\b[0-7]{3,}\b",
                                 " ".join(re.findall(r">([^<]+)</text>", read("docs", "drawings", f"{name}.svg"))))
            with self.subTest(name):
                self.assertLess(10, len(numbers))
                self.assertEqual(set(), set(numbers) - set(re.findall(r"\b[0-7]{3,}\b", case)))
