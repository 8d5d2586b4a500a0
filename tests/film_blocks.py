"""The blocks of tests/film.txt: what is done in the page of a film, and what it then shows.

The file begins with names for what is looked at and for what is done, in the page's own words (JavaScript); X is the rest of the
line:
  let NAME [X] = ..   a look: yes, no, none, a number or a text; of several one after the other, with | between them
  do NAME [X] = ..    an action
A block begins with == and what it shows. Its other lines:
  NAME| TEXT          a line of a file; those before the first block are for all. <NAME at a film has its lines in the script
  > LINE              one more line of the script
  $ film ..           a film with these options of the tool is opened, at the #address if there is one
  $ shown NAME        one of docs/films; $ class is the page of a class
Each line from here on is one step or several, with -> between them:
  : KEYS              keys that are pressed: characters, and names in angles
  click SELECTOR      the mouse; click-at LOOK clicks where a look says
  open [#address]     the same film again; open saved NAME is a page that it has saved
  look WIDTH HEIGHT   the window's size in pixels, then dark or print
  force STATES        all controls are as under the pointer (hover), with the focus (focus, focus-visible), or pressed (active)
  saved NAME          the page saves this file, which has the bytes of the script or of the block's file
  keep LOOK           what is seen now, for `LOOK is kept` and `LOOK is another`
  LOOK = TEXT         what is seen comes to be this; with ~ it has this text in it, and with > or < it is a greater or smaller
                      number
"""

import json
import os
import re
import shlex
import time

from tests.cases import encoded, files_in, marked, part, stored_blocks, text_of
from tests.films import PageCase, class_page, shown_film
from tests.panels import keys_in
from tests.steps import StepCase

PATIENCE = 120  # seconds for what a page comes to show
LINE = re.compile(r"((?:let|do) |\$ |> ?|[\w. ]+\| ?|)(.*)")
DEFINED = re.compile(r"(let|do) ([\w-]+)(?: X)? = (.*)")
CHECK = re.compile(r"(?P<name>[\w-]+)(?: (?P<argument>.*?))?? (?P<relation>=|~|>|<|is)(?: (?P<wanted>.*))?")
OPENED = re.compile(r"(film|shown|class)(.*?)(?: (#\S+))?")
RELATIONS = {"=": lambda shown, wanted: shown == wanted, "~": lambda shown, wanted: wanted in shown,
             ">": lambda shown, wanted: int(shown) > int(wanted), "<": lambda shown, wanted: int(shown) < int(wanted)}
CONTROLS = ("button", "combobox", "textbox", "slider", "checkbox", "searchbox", "spinbutton")
HELPERS = r"""const octal = (n) => n.toString(8), byId = (id) => document.getElementById(id);
const one = (selector) => document.querySelector(selector);
const all = (selector) => [...document.querySelectorAll(selector)], textOf = (one) => one && (one.innerText ?? one.textContent);
const { store, session, moves, hands, editor, exercises, sharing } = page, { state } = store, { film, chosen } = state;
const numberOf = (name) => film.text(film.placeNamed(name));
const shownOf = (it) => Array.isArray(it) ? it.map(shownOf).join(" | ") : it === true ? "yes" : it === false ? "no"
  : String(it ?? "none").replaceAll("\n", " ; ");"""


def whole(lines):
    """Returns lines with those that go on after them, which begin with two blanks."""
    return "\n".join(lines).replace("\n  ", "  ").split("\n")


BEGIN, BLOCKS = stored_blocks("film.txt")
FILES, BLOCKS = files_in(marked(LINE, whole(BEGIN)), {}), [(title, marked(LINE, whole(lines))) for title, lines in BLOCKS]
DEFINED_NAMES = {name: (kind, code)
                 for kind, name, code in (found.groups() for found in map(DEFINED.fullmatch, whole(BEGIN)) if found)}


class BlockCase(PageCase, StepCase):
    """Tests of blocks. What is wanted is a part of a step."""

    def begin(self, lines):
        self.files, self.kept, self.saved_files = files_in(lines, FILES), {}, self.room()
        self.place({name: encoded(text) for name, text in self.files.items()}, "examples", "exercises", "tests")
        self.browser.save_into(self.saved_files)
        self.script = "".join(text_of(text) for mark, text in lines if mark == ">")

    def steps(self, lines):
        return [(step, None) for mark, text in lines if mark in ("", "$")
                for step in ([f"$ {text}"] if mark else text.split(" -> "))]

    def open_film(self, text):
        """Opens a film."""
        kind, words, address = OPENED.fullmatch(text).groups()
        words = shlex.split(words)
        if kind == "shown":
            self.page = shown_film(words[0])
        elif kind == "class":
            self.page = class_page()
        else:
            named = [word for word in words if word[0] == "<" and word[1:] in self.files]
            begun = "".join(self.files[word[1:]] for word in named)
            self.script = encoded(begun + self.script).decode("latin-1")
            self.page = self.film(*(word for word in words if word not in named), script=self.script, status=None,
                                  folder=self.folder)
        self.browser.open(self.page, address or "")

    def check_step(self, step, _):
        name, _, rest = step.partition(" ")
        command = getattr(self, "do_" + name.replace("-", "_"), None)
        if name == "$":
            self.open_film(rest)
        elif name == ":":
            for key in keys_in(rest):
                self.browser.key(" " if key == "Space" else key)
        elif command:
            command(rest)
        elif DEFINED_NAMES.get(name, ("",))[0] == "do":
            self.evaluate(f"{{ {DEFINED_NAMES[name][1]}; }}", rest)
        else:
            self.compare(**CHECK.fullmatch(step).groupdict())

    def evaluate(self, code, argument):
        return self.value(f"((X) => {{ {HELPERS} return (async () => {code})(); }})({json.dumps(argument)})")

    def look(self, name, argument):
        """Returns what is seen, as a text."""
        if name == "sheets":
            self.browser.paper(self.path("paper.pdf"))
            return str(len(re.findall(rb"/Type /Page\b(?!s)", part(self.folder, "paper.pdf"))))
        if name == "spoken":
            nodes = self.browser.ask("Accessibility.getFullAXTree")["nodes"]
            regions = [node for node in nodes if node.get("role", {}).get("value") == "status" and not node["ignored"]]
            texts = {child for node in regions for child in node["childIds"]}
            return " ".join(node["name"]["value"] for node in nodes if node["nodeId"] in texts
                            and node["role"]["value"] == "StaticText")
        if name == "controls-without-a-name":
            nodes = [node for node in self.browser.ask("Accessibility.getFullAXTree")["nodes"] if not node["ignored"]]
            controls = [node for node in nodes if node["role"]["value"] in CONTROLS]
            self.assertGreater(len(controls), 30)
            return "".join(map(str, (node for node in controls if not node.get("name", {}).get("value", "").strip())))
        try:
            return self.evaluate(f"shownOf(await ({DEFINED_NAMES[name][1]}))", argument)
        except RuntimeError as fault:  # as long as what is looked at is not there
            return str(fault)

    def compare(self, name, argument, relation, wanted):
        """Waits until a look shows what is wanted."""
        if relation == "is":
            seen = self.look(name, argument) == self.kept[name, argument]
            self.assertEqual(wanted == "kept", seen)
            return
        is_so, end = RELATIONS[relation], time.monotonic() + PATIENCE
        while not is_so(shown := self.look(name, argument), wanted or ""):
            self.assertLess(time.monotonic(), end, f"it shows {shown}")
            time.sleep(0.05)

    # ---- what is done with the browser

    def do_click(self, selector):
        self.browser.click(selector)

    def do_click_at(self, name):
        self.browser.click_at(*map(float, self.look(name, "").split(" | ")))

    def do_open(self, rest):
        saved = rest.partition("saved ")[2]
        self.browser.open(self.saved_file(saved) if saved else self.page, "" if saved else rest)

    def do_look(self, rest):
        width, height, *form = rest.split()
        self.browser.look(int(width), int(height), dark="dark" in form, media="print" if "print" in form else "")

    def do_force(self, states):
        """Has all controls be as under the pointer, with the focus, or pressed."""
        ask = self.browser.ask
        for domain in ("DOM", "CSS"):
            ask(f"{domain}.enable")
        root = ask("DOM.getDocument", depth=0)["root"]["nodeId"]
        for node in ask("DOM.querySelectorAll", nodeId=root,
                        selector="button, input, select, textarea, summary, [tabindex], .n, .change, .gutter")["nodeIds"]:
            ask("CSS.forcePseudoState", nodeId=node, forcedPseudoClasses=states.split(", ") if states else [])

    def do_keep(self, rest):
        name, _, argument = rest.partition(" ")
        self.kept[name, argument or None] = self.look(name, argument or None)

    def do_saved(self, name):
        wanted = self.script.encode("latin-1") if name == "script" else encoded(self.files[name])
        path = self.saved_file(name)
        self.assertEqual(wanted, part(os.path.dirname(path), name))

    def saved_file(self, name):
        """Waits for a file that the page saves, and returns its path."""
        path, end = os.path.join(self.saved_files, name), time.monotonic() + PATIENCE
        while not os.path.exists(path) or not os.path.getsize(path):
            self.assertLess(time.monotonic(), end, f"{name} is not saved")
            time.sleep(0.05)
        return path
