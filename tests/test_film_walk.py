"""The page of a run beside the dumps of the program at random moments: its numbers, what it shows, the picture of the barrel, and
the lines of sources, beside `Source.line_of`.

The examples, sessions on channels that do not exist and on the clock, and random sessions are filmed. Which word a turn moves over
a channel is worked out from the state before it, by the tables of docs/MACHINE.md. Each run is the same: a session follows from its
seed alone, and the moments of a film from its name. Other seeds: FILM_SEEDS="100 50" compares 50 sessions from seed 100 on
(decimal).
"""

import os
import random
from typing import NamedTuple, Optional

from tests.film_blocks import FILES
from tests.films import DEVICES, PageCase, about, moments_of, random_session, shown_film, text_of
from tests.support import EXAMPLES, TOP, program, read, write

from pp6600 import Console
from pp6600.language.sources import Source
from pp6600.run.sentences import sentence
from pp6600.run.state import State, state_of
from pp6600.run.turn import NAMES

MOMENTS, EARLY = 8, 100  # of each run: so many of all its moments are compared, and so many of the first ones
ALWAYS = (3, 0o31)  # in these the clock is read, and in the handshake the question goes out
SEEDS = "0 6"  # of the random sessions: the first, and how many
WALKED = (
    ((), "examples/handshake/script"), (("--deck", "examples/overwritten-loader/deck"), "examples/overwritten-loader/script"),
    (("--panel", "examples/dead-start/panel"), "examples/dead-start/script"), ((), "examples/print-a-page/script"),
    (("--deck", "examples/read-a-deck/deck"), "examples/read-a-deck/script"))
# An OAM on channel 77, which does not exist, ends at once. Its return address, 7777 in cell 0000, is then the next instruction:
# FNC 77, which waits for ever.
NO_CHANNEL = ("SET M 0 7776 7377 7120", "SET P 0 7776", "STEP 64", "SET M 1 0 7417 7615", "STEP 64", "BACK 100", "FORWARD 3")
CLOCK_IS_READ = ("SET M 0 100 7014 3420 300", "SET P 0 100", "STEP 40")  # IAN 14, STD 20, UJN 0


class Moment(NamedTuple):
    """A moment: the state before it and after it, the processor whose turn it was, or None, and the dumps after it as
    tests/film_walk.js has them."""
    before: State
    after: State
    number: Optional[int]
    dumps: dict


def instruction(state, number):
    """Returns the code and d of what a processor does next, and whether it is in a block transfer."""
    registers = state.processors[number].registers
    phase = int(registers["PHASE"], 8)
    return (*divmod(phase or state.memories[number].number(int(registers["P"], 8)), 64), phase != 0)


def wait_of(state, number):
    """Returns for what a processor waits, or nothing, as tests/test_panel.py tries it."""
    return state.processors[number].waits_for(state.states())


def word_moved(state, number):
    """Returns the channel and the word that the next turn of a processor moves over it, with an arrow; or nothing."""
    code, channel, in_block = instruction(state, number)
    registers, memory = state.processors[number].registers, state.memories[number]
    if channel > 0o14 or in_block and registers["A"] == "000000":
        return []
    letter, register = state.channels[channel].state, state.channels[channel].register
    p = int(registers["P"], 8)
    moves = {(0o70, False): ("F", f"◂ {register}"), (0o71, True): ("F", f"◂ {register}"),
             (0o73, True): ("E", f"{memory.word(p)} ▸"), (0o72, False): ("E", f"{registers['A'][2:]} ▸"),
             (0o76, False): ("I", f"{registers['A'][2:]} ▸"), (0o77, False): ("I", f"{memory.word(p + 1)} ▸")}
    wanted, text = moves.get((code, in_block), ("", ""))
    return [[channel, text]] if letter == wanted else []


def dumped(console, state, last_word, window):
    """Returns the dumps of a simulator, as the page's state has them."""
    cells = [console.cells(n, 0, 0o7777) for n in range(10)]
    processors = [console.ask(f"DUMP PP {n:o}")[0] for n in range(10)]
    processor, first = window
    words = [line.split()[1:] for line in console.ask(f"DUMP C 0 {last_word:o}") if line[9:].strip("0")]
    return {"processors": processors, "channels": console.channels(), "waits": [wait_of(state, n) for n in range(10)],
            "sentences": [sentence(one, memory.number, state.channels) for one, memory in zip(state.processors, state.memories)],
            "frame": console.ask("DUMP XP"), "at_p": [cells[n][int(line.split()[3], 8)] for n, line in enumerate(processors)],
            "reader": console.ask("DUMP CR"), "printer": console.ask("DUMP LP"), "watches": console.ask("DUMP W"),
            "window": [cells[processor][(first + at) % 0o10000] for at in range(0o200)],
            "cells": [[n * 0o10000 + at, int(word, 8)] for n in range(10) for at, word in enumerate(cells[n]) if word != "0000"],
            "central": [[int(address, 8), word] for address, word in words]}


def count_of(words, lines):
    """Returns how many moments a script has, and whether a line of it is refused."""
    with Console(words) as console:
        answers = [(answer or ["NOTE"])[0].split() for answer in console.ask_each(lines)]
    count = sum(int(answer[1], 8) if answer[0] == "TURNS" else answer[0] in ("OK", "BACK", "FORWARD") for answer in answers)
    return 1 + count, any(answer[0] == "ERR" for answer in answers)


class Walk(PageCase):
    def walk(self, name, options, lines):
        """Compares the page of a run with the dumps. Returns how many words moved over channels."""
        choose = random.Random(name)
        words = [program(), *(os.path.join(TOP, word) if "/" in word else word for word in options)]
        total, is_refused = count_of(words, lines)
        by_chance = (choose.randrange(1, end) for end in (total, min(total, EARLY)) for _ in range(MOMENTS))
        chosen = {total - 1, *(min(moment, total - 1) for moment in ALWAYS), *by_chance}
        windows = {moment: (choose.randrange(10), choose.choice((0, 0o60, 0o100, 0o7770))) for moment in chosen}
        moments = dict(self.moments(words, lines, windows, total))
        self.browser.open(self.film(*options, script="".join(f"{line}\n" for line in lines), status=int(is_refused)))
        self.value(f"{read('tests', 'film_walk.js')}\n0")
        self.assertEqual(total, self.value("film().count"), "how many moments")
        self.assertEqual([], self.value("waitedWrongly()"), "turns that wait")
        order = list(moments)
        choose.shuffle(order)
        return sum(self.compare(choose, at, moments[at], windows[at], total) for at in order)

    @staticmethod
    def moments(words, lines, windows, total):
        """Yields the moments that are wanted, each with its number. Of central memory all is dumped at the end, else the first
        words."""
        before = None
        for at, (console, is_turn) in enumerate(moments_of(words, lines)):
            after = state_of(console) if at in windows or at + 1 in windows else None
            if at in windows:
                dumps = dumped(console, after, 0o77777 if at == total - 1 else 0o777, windows[at])
                yield at, Moment(before, after, before.slot if is_turn else None, dumps)
            before = after

    def compare(self, choose, at, moment, window, total):
        """Goes to a moment, and compares what the page shows. Returns how many words move in its picture."""
        self.go(choose, at, total)
        got, picture = self.value(f"[stateOf({window[0]}, {window[1]}), pictureOf()]")
        self.assertEqual(at, self.value("film().at"))
        if at < total - 1:
            got["central"] = [word for word in got["central"] if word[0] <= 0o777]
        for part, wanted in moment.dumps.items():
            with self.subTest(moment=f"{at:o}", part=part):
                self.assertEqual(wanted, got[part])
        with self.subTest(moment=f"{at:o}", part="barrel"):
            self.compare_barrel(moment, picture)
        return len(picture["word"])

    def go(self, choose, moment, total):
        """Goes to a moment in one of several ways."""
        way = choose.randrange(3)
        if way == 0:
            self.value(f"page.moves.moveTo({moment})")
        else:
            near = max(moment - 1, 0) if way == 1 else min(moment + 1, total - 1)
            self.value(f"page.moves.moveTo({near}); document.activeElement.blur()")
            if near != moment:
                self.browser.key("s" if way == 1 else "b")

    def compare_barrel(self, moment, got):
        circles = []
        for number in range(10):
            state = moment.before if number == moment.number else moment.after
            circles.append([f"{number:02o}", NAMES[instruction(state, number)[0]], state.processors[number].registers["P"]])
        self.assertEqual(circles, got["circles"])
        self.assertEqual(([] if moment.number is None else [moment.number], [moment.after.slot]), (got["acted"], got["slot"]))
        channels = [(number, instruction(moment.after, number)[1]) for number in range(10) if wait_of(moment.after, number)]
        self.assertEqual([f"{number} {channel}" for number, channel in channels if channel < 0o15], got["waits"])
        self.assertEqual([] if moment.number is None else word_moved(moment.before, moment.number), got["word"])
        for number, name, text in got["channels"]:
            channel = moment.after.channels[number]
            wanted = {"I": "–", "E": "empty"}.get(channel.state, channel.register)
            self.assertEqual((f"H {number:02o}", wanted), (name, text))

    def test_examples(self):
        moved = 0
        for options, script in WALKED:
            with self.subTest(script=script):
                moved += self.walk(script, options, text_of(script).splitlines())
        self.assertGreater(moved, 2)

    def test_no_such_channel(self):
        self.walk("no such channel", (), list(NO_CHANNEL))

    def test_clock(self):
        self.assertGreater(self.walk("the clock", (), list(CLOCK_IS_READ)), 0)

    def test_random_sessions(self):
        first, count = map(int, os.environ.get("FILM_SEEDS", SEEDS).split())
        for seed in range(first, first + count):
            with self.subTest(seed=seed):
                self.walk(f"random session, seed {seed}", DEVICES, random_session(seed))


# ---- the lines of sources

class Mark(NamedTuple):
    """What is said of a line with words, and the address of the cell that has another word."""

    text: str
    address: Optional[int] = None


CELLS = 0o10000
WHOLE, NOT_YET = Mark(""), Mark("not yet")
# In the page: of each source the line where its processor is, and what is said of each line with words.
LINES = """[...page.store.state.film.sources.values()].map((one) => {
  const { film } = page.store.state, { number, note } = m_machine_sources.lineOfNext(film, one);
  const rows = one.lines.filter((row) => row.words.length);
  return [number ? [number, note] : [], rows.map((row) => {
    const { text, address } = m_machine_sources.markOf(film, one, row.words);
    return m_machine_sources.isLoaded(film, row) ? [text, address] : ["not yet", null];
  })];
})"""
PROGRAMS = os.path.join(TOP, "tests", "programs")
# Runs with sources: options of the machine, the sources by their processors, and the lines of a script.
RUNS = (
    (("--deck", f"{EXAMPLES}/overwritten-loader/deck"), {0: f"{EXAMPLES}/overwritten-loader/loader.pp"},
     ("STEP 1300", "BACK 675", "BACK 75", "FORWARD 20", "SET A 0 0", "STEP 25")),
    ((), {0: f"{PROGRAMS}/monitor.pp"}, ("STEP 6000", "BACK 3000", "SET M 0 305 1000", "STEP 200")),
    ((), {3: f"{PROGRAMS}/mover.pp"}, ("STEP 10000", "BACK 2000")),
    ((), {0: f"{EXAMPLES}/handshake/asks.pp", 1: f"{EXAMPLES}/handshake/answers.pp"}, ("STEP 200", "SET M 1 103 0", "STEP 100")))


def sources_of(sources):
    """Returns the options that load sources."""
    return [word for number, path in sources.items() for word in ("--source", f"{number:o}", path)]


def line_at_p(source, registers, cells):
    """Returns the line where a processor is, and why it is not performed if it isn't; in a block transfer that of the instruction,
    which PHASE has, before whose second word the transfer goes on: cell 0000 has this address."""
    phase = int(registers["PHASE"], 8)
    at = (cells[0] - 1) % CELLS if phase else int(registers["P"], 8)
    line = source.line_of(at, phase or cells[at], cells[(at + 1) % CELLS])
    return [] if line is None else [line.number, "was" if not line.is_there else f"word {line.at + 1}" if line.at else ""]


def mark_of(source, row, cells):
    """Returns what is said of a row of the listing: its words are where they run or where they were loaded, or all but a second
    word, or not."""
    mark = None
    for base in (row.location, row.origin):
        found = cells[base:base + len(row.words)]
        if found == list(row.words):
            return WHOLE
        line = source.line_of(base, *cells[base:base + 2])
        if line and line.number == row.number and line.second is not None:
            mark = Mark("m is", base + 1)
    return mark or Mark("now", next(row.origin + at for at, word in enumerate(row.words) if cells[row.origin + at] != word))


def marks_of(source, cells):
    """Returns what is said of each line with words."""
    marks = {}
    for row in source.program.rows:
        if row.words:
            marks.setdefault(row.number, []).append(mark_of(source, row, cells))
    worst = ("now", "m is", "")
    return {number: min(some, key=lambda mark: worst.index(mark.text)) for number, some in sorted(marks.items())}


class Lines(PageCase):
    """Where a processor is, and which lines have been overwritten."""

    def test_lines(self):
        """At random moments the lines are those of the machine that was there then."""
        for options, sources, script in RUNS:
            self.browser.open(self.film(*options, *sources_of(sources), script="".join(f"{line}\n" for line in script)))
            loaded = {number: Source.of_file(path) for number, path in sources.items()}
            loading = [line for number, source in loaded.items() for line in source.loading(number)]
            total = self.value("page.store.state.film.count")
            moments = random.Random(script[0]).sample(range(len(loading), total), 40)
            for moment, (console, _) in enumerate(moments_of([program(), *options], [*loading, *script])):
                if moment in moments:
                    with self.subTest(script=script, moment=f"{moment:o}"):
                        self.check(self.value(f"page.moves.moveTo({moment}), {LINES}"), console, loaded)

    def check(self, got, console, sources):
        """Compares the lines of a moment with the dumps there."""
        for (line, marks), (number, source) in zip(got, sources.items()):
            cells = [int(word, 8) for word in console.cells(number, 0, CELLS - 1)]
            self.assertEqual(line_at_p(source, console.registers(number), cells), line)
            self.assertEqual(list(marks_of(source, cells).values()), [Mark(*mark) for mark in marks])

    def test_loading(self):
        """Before a line is loaded, nothing is said to be overwritten."""
        self.browser.open(self.film("--source", "0", write(self.path("count.pp"), FILES["count.pp"]), script="STEP\n"))
        marks = [[Mark(*mark) for mark in self.value(f"page.moves.moveTo({moment}), {LINES}")[0][1]] for moment in (0, 1)]
        self.assertEqual([[NOT_YET] * 9, [WHOLE] * 6 + [NOT_YET] * 3], marks)

    def test_without_a_source(self):
        """A film without a source knows nothing of lines."""
        self.assertNotIn("sources", about(read(shown_film("handshake"))))
