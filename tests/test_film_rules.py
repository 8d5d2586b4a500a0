"""The rules of a film's page where Firefox is there: each number is the simulator's, a look changes nothing, an action in the past
begins a branch, nothing is lost. In Chromium these are in tests/film.txt and tests/test_film_walk.py; here is what needs its
protocol, and the page of a class. Expected values are those of docs/FILM.md and of the runs' notes."""

import json
import os
import random
import re
import unittest

from tests import firefox
from tests.films import FilmCase, PageCase, class_page, forget, shown_film
from tests.support import TOP, add_tests, read, run, write

COUNTER = "SET M 0 100 1405 3420 300\nSET P 0 100\nSTEP 100\n"  # LDN 5, STD 20, UJN 0
MOMENTS = 12  # at which numbers are compared
BEGIN = """const { store, session, moves, hands, editor, exercises, sharing } = window.page;
const idle = async () => { await session.doing; await new Promise((done) => setTimeout(done)); };
const octal = (number) => number.toString(8), names = () => store.state.tree.all.map(({ name }) => name);
const last = () => store.state.transcript.at(-1), turn = () => octal(store.state.film.turn[store.state.film.at]);"""
SHOWN = """[...document.querySelectorAll("[data-cell]")].map((one) => [Number(one.dataset.cell), one.textContent])"""
REGISTERS = """[...document.querySelectorAll(".processors tr[data-processor]")].map((row) => [row.dataset.processor,
  ["P", "A", "Q"].map((kind) => row.querySelector(`.n[data-place^="${kind} "]`).textContent)])"""
CHANNELS = """[...document.querySelectorAll(".channels tr:not(:last-child)")].map((row) => [row.cells[0].textContent,
  row.querySelector("[data-place^=STATE]").textContent, row.querySelector(".n[data-place^=H]").textContent])"""


class Asked:
    """Asks the page of a browser, which a case has."""

    def js(self, text):
        """Runs statements in the page. Returns what they return."""
        return self.browser.evaluate(f"(async () => {{ {BEGIN} {text} }})()")

    def film(self, *words, **more):
        self.page = FilmCase.film(self, *words, **more)
        return self.page

    def open_counter(self, address=""):
        self.browser.open(self.film(script=COUNTER), address)

    def test_a_key_is_one_drawing(self):
        """But a machine that is busy shows that it is, and a turn that takes long comes before its answer."""
        self.open_counter()
        self.js("session.client.hears.busy = () => {}")
        found = self.js("""moves.moveTo(20); await idle(); let before = store.drawings; hands.do("on"); await idle();
          const inFilm = store.drawings - before; moves.moveTo(store.state.film.last); await idle(); before = store.drawings;
          await hands.do("on"); await idle(); return [inFilm, store.drawings - before]""")
        self.assertIn(found, ([1, 1], [1, 2]))


class Rules(Asked):
    """What Firefox is asked."""

    # ---- truth

    def dumped(self, line):
        """Returns the answer of another session, at the moment that is shown."""
        return self.js(f"""const {{ film }} = store.state, given = session.files();
          const asked = {{ given, parts: film.partsInEffect(film.at), text: {json.dumps(line)} }};
          return (await session.client.ask("look", asked)).answers[0];""")

    def test_each_number_is_the_simulators(self):
        self.browser.open(shown_film("overwritten-loader"))
        choose, compared = random.Random(1), 0
        for _ in range(MOMENTS):
            self.js(f"moves.moveTo({choose.randrange(self.js('return store.state.film.count'))}); await idle()")
            cells, registers, channels = self.js(f"return [{SHOWN}, {REGISTERS}, {CHANNELS}]")
            n = cells[0][0] >> 12
            first, *rows = (line.split() for line in self.dumped(f"DUMP M {n:o} 0 7777"))
            words = [word for row in (first, *rows) for word in row[1:]]
            of_rows = {int(row[0], 8) + at: word for row in (first, *rows) for at, word in enumerate(row[1:])}
            dumps = dict(enumerate(words)) if len(words) == 0o10000 else of_rows
            shown = {at % 0o10000: word for at, word in cells if at % 0o10000 in dumps}
            self.assertEqual({at: dumps[at] for at in shown}, shown)
            for number, found in registers:
                words = self.dumped(f"DUMP PP {int(number):o}")[0].split()
                self.assertEqual([words[3], words[5], words[7]], found)
            states = {line.split()[1]: line.split()[2:] for line in self.dumped("DUMP H")}
            self.assertEqual([[name, *states[name.split()[1]]] for name, *_ in channels], channels)
            compared += len(shown) + 3 * len(registers) + 2 * len(channels)
        self.assertGreater(compared, 100 * MOMENTS)

    # ---- a look changes nothing

    def test_looks(self):
        self.open_counter()
        for line, answer in (("DUMP PP 0", "PP 00 P"), ("FOO", "ERR 01"), ("BACK 3", "shown"), ("STEP 2", "shown"),
                             ("FORWARD 1", "shown"), ("* a note", "")):
            with self.subTest(line):
                found = self.js(f"""moves.moveTo(20); await session.type([{json.dumps(line)}]);
                  return [last().isLook, last().answer.join(" "), octal(store.state.film.count), names()]""")
                self.assertEqual([True, "103", ["the run"]], [found[0], *found[2:]])
                self.assertIn(answer, found[1])

    def test_an_action_in_the_past_begins_a_branch(self):
        self.open_counter()
        found = self.js("""moves.moveTo(20); await session.type(["SET A 0 3", "STEP 20"]); const first = [names(), turn()];
          await session.goToBranch(0); const back = [turn(), store.state.film.count];
          moves.moveTo(10); await session.type(["SET A 0 5"]); await session.goToBranch(1);
          return [first, back, names(), turn(), store.state.film.number("A", 0)]""")
        self.assertEqual([[["the run", "SET A 0 3"], "42"], ["22", 67], ["the run", "SET A 0 3", "SET A 0 5"], "42", 3], found)

    # ---- searches

    def test_until(self):
        self.open_counter()
        found = self.js("""moves.moveTo(3); await session.type(["until P 0 = 102"]); const on = [turn(), last().isLook];
          await session.type(["back until P 0 = 101"]); const back = [turn(), last().isLook];
          await session.type(["until A 0 = 777"]);
          const vain = [turn(), last().answer[0]]; await session.type(["until nonsense"]); const wrong = last().answer[0];
          moves.moveTo(store.state.film.last); await session.type(["until P 1 = 12"]);
          return [on, back, vain, wrong.slice(0, 11), turn(), store.state.film.number("P", 1), names()]""")
        self.assertEqual([["13", True], ["1", True], ["1", "not in the film after this: at its end a search makes turns"],
                          "a condition", "134", 0o12, ["the run"]], found)

    # ---- what is kept

    def test_kept_and_saved(self):
        self.open_counter()
        self.js("moves.moveTo(20); await session.type(['SET A 0 3']); session.keepNow()")
        path = self.page
        self.browser.open(path)
        self.assertEqual([["the run", "SET A 0 3"], 3, None], self.js("""
          await session.restore(store.state.offer.record); return [names(), store.state.film.number("A", 0), store.state.offer]"""))


class InChromium(Asked, PageCase):
    """In Chromium, with what needs its protocol."""

    def test_two_tabs(self):
        """Two tabs keep two sessions, and neither is offered the other's while that is open."""
        self.open_counter()
        self.js("await session.type(['SET A 0 3']); session.keepNow()")
        first = self.browser.session
        self.browser.session = None
        target = self.browser.ask("Target.createTarget", url="about:blank")["targetId"]
        self.browser.session = self.browser.ask("Target.attachToTarget", targetId=target, flatten=True)["sessionId"]
        try:
            self.browser.ask("Page.enable")
            self.browser.open(self.page)
            self.assertEqual([None, 0], self.js("return [store.state.offer, store.state.film.number('A', 0) === 3 ? 1 : 0]"))
            self.js("await session.type(['SET A 0 4']); session.keepNow()")
            self.browser.session, second = first, self.browser.session
            self.assertEqual(3, self.js("session.keepNow(); return store.state.film.number('A', 0)"))
            # what another tab keeps is seen here a little later
            kept = self.js("""const count = () => Object.keys(localStorage).filter((key) => key.includes("session run")).length;
              for (let tries = 0; tries < 100 && count() < 2; tries += 1) await new Promise((done) => setTimeout(done, 100));
              return count()""")
            self.assertGreaterEqual(kept, 2)
            self.browser.session = second
        finally:
            self.browser.session = None
            self.browser.ask("Target.closeTarget", targetId=target)
            self.browser.session = first


@unittest.skipUnless(firefox.found(), "there is no Firefox")
class InFirefox(Rules, FilmCase):
    """In Firefox."""

    @classmethod
    def setUpClass(cls):
        super().setUpClass()
        cls.browser = firefox.Firefox(firefox.found())
        cls.addClassCleanup(cls.browser.end)

    def test_a_key(self):
        self.browser.open(self.film(script="SET M 0 100 1405 3420 300\nSET P 0 100\nSTEP 12\n"))
        self.browser.key("s")
        self.browser.wait_for("document.querySelector('.turn b').textContent === '13'")
        self.assertEqual("000005", self.browser.evaluate("document.querySelector('.processors [data-place=\"A 00\"]').textContent"))


class BadSurroundings(PageCase):
    """One sentence, and no dead controls."""

    def setUp(self):
        super().setUp()
        self.added = []

    def open_in(self, path, script=""):
        """Opens a page in a browser that has run a script before it."""
        if script:
            self.added.append(self.browser.ask("Page.addScriptToEvaluateOnNewDocument", source=script)["identifier"])
            self.addCleanup(lambda: self.browser.ask("Page.removeScriptToEvaluateOnNewDocument", identifier=self.added.pop()))
        self.browser.go(f"file://{path}")

    def assert_fault(self, reason):
        self.browser.wait_for("document.getElementById('fault') && !document.getElementById('fault').hidden")
        self.assertEqual([f"This film can't be shown: {reason}", 0], self.value("[document.getElementById('fault').textContent, "
                         "[...document.querySelectorAll('button, input')].filter((one) => one.checkVisibility()).length]"))
        self.browser.log.clear()

    def test_damaged(self):
        """A file that is cut short, or has a flipped byte."""
        text = read(self.film(script=COUNTER))
        for part in ("simulator", "view"):
            at = text.index(f'id="{part}">') + 2000
            flipped = text[:at] + ("A" if text[at] != "A" else "B") + text[at + 1:]
            for name, damaged in (("cut", text[:at] + text[at + 4000:]), ("flipped", flipped)):
                with self.subTest(name, part=part):
                    self.open_in(write(self.path(f"{name}-{part}.html"), damaged))
                    self.assert_fault("it is damaged: a part of it is missing")

    def test_cut_short(self):
        """A file whose end is missing says so, wherever it is cut."""
        text = read(self.film(script=COUNTER))
        for part in (0.2, 0.5, 0.9, 0.999):
            with self.subTest(part=part):
                self.open_in(write(self.path("cut.html"), text[:int(part * len(text))]))
                self.assert_fault("its file is not whole, the end is missing: save or copy it again")

    def check(self, row):
        """A browser without something that the page needs."""
        script, reason = row
        self.open_in(self.film(script=COUNTER), script)
        self.assert_fault(reason)

    def test_a_worker_that_never_answers(self):
        self.open_in(self.film(script=COUNTER),
                     "{ const later = setTimeout; window.setTimeout = (act, time, ...more) => later(act, time === 20000 ? 20 : "
                     "time, ...more); "
                     "window.Worker = class { postMessage() {} }; }")
        self.browser.wait_for("document.querySelector('.opening')?.textContent.startsWith('The simulator does not answer')")
        self.assertEqual(0, self.value("document.querySelectorAll('#app button').length"))

    def test_a_page_that_is_only_looked_at(self):
        """As long as the page asks for nothing, it does not say that the worker is silent. Here twenty seconds are one."""
        self.open_in(self.film(script=COUNTER),
                     "{ const later = setTimeout; window.setTimeout = (act, time, ...more) => later(act, time === 20000 ? 1000 : "
                     "time, ...more); }")
        self.browser.wait_for("document.body && document.body.dataset.open === 'yes'")
        self.assertEqual("", self.value("new Promise((done) => setTimeout(() => done(page.store.state.said.text), 2000))"))

    def test_a_script_that_goes_on_too_long(self):
        """What is left of it is said. Here the worker's clock is a thousand times as fast."""
        self.open_in(self.film(script="STEP 777777\n" * 3 + "* a note\n"), """{
          const fast = "{ const now = performance.now.bind(performance); performance.now = () => 1000 * now(); }";
          const make = URL.createObjectURL;
          URL.createObjectURL = (blob) => make(new Blob([fast, blob], { type: blob.type })); }""")
        self.browser.wait_for("document.body && document.body.dataset.open === 'yes'")
        self.assertRegex(self.value("page.store.state.said.text"), r"^stopped: [1-4] lines of the script are left$")

    def test_a_link_that_is_cut(self):
        path = self.film(script=COUNTER)
        self.browser.open(path)
        link = self.value("(async () => (await m_page_files.linkTo({ script: page.session.scriptToSave() }, '')).split('#')[1])()")
        self.browser.open(path, f"#{link}")
        self.assertEqual(0o102, self.value("page.store.state.film.count - 1"))
        self.open_in(f"{path}#{link[:-12]}")
        self.assert_fault("the link is cut short: its script can't be read")


add_tests(BadSurroundings, BadSurroundings.check, {
    "no_workers": ("Object.defineProperty(window, 'Worker', { value: undefined })", "this browser has no workers"),
    "too_old": ("Object.defineProperty(window, 'DecompressionStream', { value: undefined })",
                "this browser is too old, one of 2023 or later can"),
    "no_webassembly": ("WebAssembly.instantiate = () => { throw new Error('it is switched off'); }",
                       "this browser does not run the simulator, which is WebAssembly: it is switched off")}.items())


def solution(name):
    """Returns the files of the solution of an exercise, with the note that names it."""
    folder = os.path.join(TOP, "exercises", name, "solution")
    parts = {part: read(folder, part) for part in ("script", "panel") if os.path.exists(os.path.join(folder, part))}
    return {**parts, "script": f"* EXERCISE {name}\n{parts.get('script') or read('exercises', name, 'script')}"}


class Solve(PageCase):
    """The page of a class, beside its blocks in tests/film.txt."""

    js = Asked.js

    def test_sizes(self):
        """docs/EXERCISES.md says how many million bytes are handed out."""
        for name, size in re.findall(r"`exercises/hand-out (class\.zip|NAME\.html)` makes (?:it|an archive), ([\d.]+) million",
                                     read("docs", "EXERCISES.md")):
            with self.subTest(name):
                # with the programs of every machine, as in a checkout
                run("exercises/hand-out", self.path(name), env={"PP6600": ""})
                self.assertAlmostEqual(float(size), os.path.getsize(self.path(name)) / 1e6, delta=0.1 * float(size))

    def test_tasks_need_no_shell(self):
        self.browser.open(class_page())
        for name, task in self.value("page.store.state.exercises.map(({ name, task }) => [name, task])"):
            with self.subTest(name):
                self.assertNotRegex(task, r"tools/|check-exercise|exercises/|\bfile\b")
                self.js(f"await exercises.goTo({json.dumps(name)}); await idle()")
                self.assertNotIn("`", self.value("document.querySelector('.task').textContent"))

    def test_tutorials(self):
        """A click performs each line of both tutorials, with the answer that it has there, in no session of an exercise."""
        self.browser.open(class_page())
        self.assertEqual([[2, True, None], []], self.js("""const { tutorials } = store.state, wrong = [];
          for (const at of tutorials.keys()) {
            document.querySelector(`[data-tutorial="${at}"]`).click(); await idle();
            for (const button of document.querySelectorAll("[data-perform]")) {
              const [, part, line] = button.dataset.perform.split(" "), [text, answer] = tutorials[at].parts[part].lines[line];
              await hands.click({ target: button });
              const last = store.state.transcript.at(-1);
              if (last.text !== text || last.answer.join("\\n") !== answer) wrong.push([text, answer, last.text, last.answer]);
            }
          }
          return [[tutorials.length, document.querySelectorAll("[data-perform]").length > 20, store.state.exercise], wrong]"""))

    def test_check(self):
        """Each exercise is not solved as it was handed out, and solved by its solution; the check is that of check-exercise."""
        self.browser.open(class_page())
        for name in self.value("page.store.state.exercises.map(({ name }) => name)"):
            with self.subTest(name):
                found = self.js(f"""await exercises.goTo({json.dumps(name)}); await exercises.check();
                  const first = store.state.checked?.wrong.length !== 0;
                  await exercises.show("a solution", {json.dumps(solution(name))}); await exercises.check();
                  return [first, store.state.exercise, store.state.checked.wrong, names().slice(0, 2)]""")
                self.assertEqual([True, name, [], [name, "a solution"]], found)  # one that goes back begins another branch

    def test_handed_in(self):
        """What the page saves is what grade takes: a script, a link, and the page with all that was worked on."""
        self.browser.open(class_page())
        self.browser.save_into(self.folder)
        link = self.js("""await session.type(["SET M 0 100 3020 3121 3422 300", "STEP 7", "SET A 0 1", "BACK 1"]);
          await exercises.check();
          return (await m_page_files.linkTo({ script: session.scriptToSave() }, "moment=3"))""")
        self.assertEqual(["first-program", True],
                         self.js("return Object.entries(store.state.answers).map(([name, { isRight }]) => [name, isRight])[0]"))
        write(self.path("given", "ada.txt"), self.js("return session.scriptToSave()"))
        write(self.path("given", "grace"), f"{link}\n")
        self.js("await exercises.goTo('exchange'); await sharing.savePage()")
        os.rename(self.saved("exchange.html"), self.path("given", "hopper.html"))
        done = run("exercises/grade", self.path("given"))
        self.assertEqual(["ada      +  .  .  .  .  .  .  .       1", "grace    +  .  .  .  .  .  .  .       1",
                          "hopper   +  .  .  .  -  .  .  .       1"], done.out.splitlines()[1:4])


WAYS = int(os.environ.get("WAYS", "4"))  # of going through a class at random
# A step of a way: statements in the page, or what the case does. A line is one of the solution or one of these.
LINES = ("STEP 1000", "STEP 7", "BACK 1", "BACK 20", "FORWARD 3", "WATCH M 0 22", "SET M 0 50 1", "SET A 0 1", "DUMP PP 0", "GO")
STEPS = {
    "exercise": "await exercises.goTo(NAME)", "line": "await session.type([LINE])", "right line": "await session.type([RIGHT])",
    "solution": "await exercises.show('a solution', SOLUTION)", "moment": "moves.moveTo(NUMBER % store.state.film.count)",
    "back": "await hands.do('back', 1 + NUMBER % 20)", "on": "await hands.do('on', 1 + NUMBER % 20)",
    "check": "await exercises.check()",
    "check again": "await exercises.check()", "panel": "exercises.typePanel(PANEL)", "begin again": "await exercises.again()",
    "branch": "await session.goToBranch(names().length ? NUMBER % store.state.tree.all.length : 0)",
    "undo": "await session.leaveBranch()",
    "reload": None, "open again": None,
}


class OneVerdict(PageCase):
    """What the page says of each exercise is what grade says of the page that was saved."""

    js = Asked.js

    def test_random_ways(self):
        self.browser.save_into(self.folder)
        os.mkdir(self.path("handed-in"))
        wanted = {}
        for seed in range(WAYS):
            page = self.walk(random.Random(seed))
            os.rename(page, self.path("handed-in", f"s{seed:03}.html"))
            wanted[f"s{seed:03}"] = self.verdicts(self.path("handed-in", f"s{seed:03}.html"))
        found = {line.split()[0]: line.split()[1:-1]
                 for line in run("exercises/grade", self.path("handed-in")).out.splitlines()[1:1 + WAYS]}
        self.assertEqual(wanted, {name: ["+" if mark == "+" else "-" for mark in marks] for name, marks in found.items()})

    def walk(self, choose):
        """Goes through the exercises at random. Returns the path of the page that is saved at the end."""
        page, name = class_page(), "first-program"
        forget(self.browser)
        self.browser.open(page)
        names = self.value("page.store.state.exercises.map(({ name }) => name)")
        for _ in range(16):
            step = choose.choice(list(STEPS))
            if step == "open again":
                page = self.saved_page()
            if STEPS[step] is None:
                self.js("session.keepNow()")
                self.browser.open(page)
                continue
            name = choose.choice(names) if step == "exercise" else self.js("return store.state.exercise")
            files, number = solution(name), choose.randrange(4000)
            lines = [line for line in files["script"].splitlines() if line.startswith("SET")]
            panel = read("exercises", "dead-start-from-cards", "solution", "panel")
            values = {"NAME": name, "NUMBER": number, "LINE": choose.choice(LINES), "RIGHT": choose.choice(lines or LINES),
                      "SOLUTION": files, "PANEL": choose.choice([panel, "1 2 3", panel.replace("7712", "7713")])}
            self.js(re.sub("|".join(values), lambda found: json.dumps(values[found[0]]), STEPS[step]))
        return self.saved_page()

    def saved_page(self):
        """Saves the page. Returns the path of the file, which the next one does not overwrite."""
        self.number = getattr(self, "number", 0) + 1
        name = self.js("const { name } = sharing; await sharing.savePage(); return name")
        os.rename(self.saved(f"{name}.html"), self.path(f"{self.number}.html"))
        return self.path(f"{self.number}.html")

    def verdicts(self, page):
        """Returns what a page says that was saved: what is solved, or else what Check says of each exercise as it was left."""
        forget(self.browser)
        self.browser.open(page)
        return self.js("""const found = [];
          for (const { name } of store.state.exercises) {
            if (name !== store.state.exercise) await exercises.goTo(name);
            store.change({ checked: null });
            const wasRight = store.state.answers[name]?.isRight;
            await exercises.check();
            found.push(wasRight || store.state.checked?.wrong.length === 0 ? "+" : "-");
          }
          return found;""")
