"""Measures the page of a film, for docs/SPEED.md: in Chromium the processor milliseconds of the page for a turn in the film, a turn
that is made at its end, and a step of a drag, with their drawing; the processor seconds of the renderer, with all its threads, to
open a film; the seconds to open one of 983,044 moments, and a turn more there; and in both browsers the milliseconds from a key to
its picture. All numbers are decimal. The load of the machine is printed too.

    bench/page [--beside CLONE]

measures the page of another clone, as of an older version, in the same browser in turn."""

import argparse
import glob
import os
import statistics
import subprocess
import tempfile
import time

from tests import browser, firefox

TOP = os.path.dirname(os.path.dirname(os.path.dirname(os.path.abspath(__file__))))
KEYS, DRAGGED, ROUNDS = 40, 100, 2
LOADER = os.path.join("examples", "overwritten-loader")
# All ten processors run, a source and a deck are shown, and a number is chosen whose changes have a lane.
LOOP = ("SET M {n:o} 100 1405 3420 3021 3121 3422 1004", "SET M {n:o} 106 7014 3440 300", "SET P {n:o} 100")
LONG = [line.format(n=n) for n in range(1, 8) for line in LOOP] + ["STEP 777700"] * 4
LONG_OPTIONS = ("--source", "0", os.path.join("tests", "programs", "monitor.pp"), "--deck",
                os.path.join("examples", "read-a-deck", "deck"))
CHOSEN = "#place=M+1+20"
LANES = "document.querySelector('#lanes svg#lanes-picture, svg#lanes')"  # of pages before 6.0.0, and of this one
TURN = "(document.querySelector('.turn b') || document.querySelector('#position')).textContent"
# Notes how long it takes from each key to the frame after the one in which its moment was drawn.
WATCH = f"""(() => {{
  const times = [];
  let since = 0;
  document.addEventListener("keydown", (event) => {{ since = event.timeStamp; }}, true);
  new MutationObserver(() => {{
    const began = since;
    since = 0;
    if (began) requestAnimationFrame(() => setTimeout(() => {{
      times.push(performance.now() - began);
      document.body.dataset.times = times.join(" ");
    }}));
  }}).observe(document.querySelector(".turn") || document.querySelector("#position"),
    {{ characterData: true, childList: true, subtree: true }});
  return true;
}})()"""
TIMES = "(document.body.dataset.times || '').split(' ').filter(Boolean).map(Number)"


def load():
    return f"load {os.getloadavg()[0]:.1f}"


def film(clone, room, name, script, *words):
    """Makes a film by the tool of a clone. Returns its path."""
    path = os.path.join(room, f"{name}.html")
    subprocess.run([os.path.join(clone, "tools", "film"), *words, script, "-o", path], cwd=clone, check=True)
    return path


class Measured:
    """Chromium with a film."""

    def __init__(self):
        self.browser = browser.Browser(browser.found())
        self.browser.look(1280, 800)
        self.browser.ask("Performance.enable", timeDomain="threadTicks")

    def spent(self):
        """Returns the processor milliseconds that the page has taken."""
        return 1000 * next(one["value"] for one in self.browser.ask("Performance.getMetrics")["metrics"]
                           if one["name"] == "TaskDuration")

    def open(self, path, address=""):
        """Returns the seconds of opening a film."""
        begin = time.monotonic()
        self.browser.open(path, address)
        return time.monotonic() - begin

    def renderers(self):
        """Returns the processor seconds of each renderer of the browser, with its threads."""
        found = {}
        for path in glob.glob("/proc/[0-9]*/stat"):
            try:
                with open(path, encoding="utf-8", errors="replace") as stat, open(path.replace("stat", "cmdline"), "rb") as words:
                    numbers, is_renderer = stat.read().rpartition(")")[2].split(), b"--type=renderer" in words.read()
            except OSError:
                continue  # it has ended
            if is_renderer and int(numbers[3]) == self.browser.process.pid:
                found[path] = (int(numbers[11]) + int(numbers[12])) / os.sysconf("SC_CLK_TCK")
        return found

    def spent_to_open(self, path):
        """Returns the processor seconds of opening a film."""
        self.browser.leave()
        before = self.renderers()
        self.browser.open(path)
        return sum(seconds - before.get(one, 0) for one, seconds in self.renderers().items())

    def per_key(self, key, count):
        """Returns the milliseconds of a key, each of which leads to another turn."""
        begin = self.spent()
        for _ in range(count):
            turn = self.browser.evaluate(TURN)
            self.browser.key(key)
            while self.browser.evaluate(TURN) == turn:
                time.sleep(0.002)
        return (self.spent() - begin) / count

    def per_drag(self):
        """Returns the milliseconds of a step of a drag over the run."""
        x, y, width, height = self.browser.evaluate(
            f"(({{ x, y, width, height }}) => [x, y, width, height])({LANES}.getBoundingClientRect())")
        move = lambda kind, at: self.browser.ask("Input.dispatchMouseEvent", type=kind, x=x + width * 0.2 + at, y=y + height / 2,
                                                 button="left", buttons=1, clickCount=1)
        move("mousePressed", 0)
        begin = self.spent()
        for step in range(DRAGGED):
            move("mouseMoved", step * 2.3 % (width * 0.6))
        spent = self.spent() - begin
        move("mouseReleased", 0)
        return spent / DRAGGED


def in_chromium(clones, room):
    """Measures films of the clones in turn, and prints the least of the rounds."""
    one, found = Measured(), {}
    long = {clone: film(clone, room, f"long {at}", os.path.join(room, "script"), *LONG_OPTIONS) for at, clone in enumerate(clones)}
    short = {clone: film(clone, room, f"short {at}", os.path.join(LOADER, "script"), "--source", "0",
                         os.path.join(LOADER, "loader.pp"), "--deck",
                         os.path.join(LOADER, "deck")) for at, clone in enumerate(clones)}
    note = lambda clone, what, value: found.setdefault((what, clone), []).append(value)
    for _ in range(ROUNDS):
        for clone in clones:
            note(clone, "opening, processor s", one.spent_to_open(short[clone]))
            one.open(short[clone], "#turn=200&place=M+0+106")
            note(clone, "a turn in the film, ms", one.per_key("s", KEYS))
            note(clone, "a step of a drag, ms", one.per_drag())
            one.browser.key("End")
            note(clone, "a turn at the end, ms", one.per_key("s", KEYS))
            note(clone, "983,044 moments open, s", one.open(long[clone], CHOSEN))
            one.browser.key("End")
            note(clone, "a turn more of them, ms", one.per_key("s", KEYS))
    for (what, clone), values in sorted(found.items()):
        print(f"{what:48} {min(values):8.2f}  {clone}", flush=True)
    for clone in clones:
        print(f"{os.path.getsize(short[clone]):8} bytes of a film, {os.path.getsize(long[clone])} of the long one  {clone}; "
              f"{load()}")
    one.browser.end()


def from_key_to_picture(name, one, path):
    one.open(path)
    one.evaluate(WATCH)
    one.key("End")
    for count in range(1, KEYS + 1):
        one.key("s")
        one.wait_for(f"{TIMES}.length >= {count}")
    ordered = sorted(one.evaluate(TIMES))
    print(f"{name}, from a key to its picture: median {statistics.median(ordered):.0f} ms, 90 % "
          f"{ordered[len(ordered) * 9 // 10]:.0f} ms; {load()}", flush=True)
    one.end()


def main():
    parser = argparse.ArgumentParser(description=__doc__, formatter_class=argparse.RawDescriptionHelpFormatter)
    parser.add_argument("--beside", metavar="CLONE", help="a clone with another page")
    asked = parser.parse_args()
    with tempfile.TemporaryDirectory() as room:
        with open(os.path.join(room, "script"), "w", encoding="ascii") as file:
            file.writelines(f"{line}\n" for line in LONG)
        path = film(TOP, room, "key", os.path.join(LOADER, "script"), "--deck", os.path.join(LOADER, "deck"))
        if browser.found():
            in_chromium([TOP, *([os.path.abspath(asked.beside)] if asked.beside else [])], room)
            from_key_to_picture("Chromium", browser.Browser(browser.found()), path)
        if firefox.found():
            from_key_to_picture("Firefox", firefox.Firefox(firefox.found()), path)
