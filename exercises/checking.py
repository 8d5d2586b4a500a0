"""The exercises, and how an answer to one is checked. Works in a checkout and in an installation."""

import difflib
import functools
import itertools
import os
import re
import shutil
import stat
import subprocess
import tempfile

try:
    import resource
except ImportError:  # Windows has none
    resource = None

HERE = os.path.dirname(os.path.realpath(__file__))

from pp6600 import Console, Failure
from pp6600.shell.command_line import complain
from pp6600.shell.files import checked_program
from pp6600.shell.installation import chosen_program
from pp6600.shell.options import BadWord

ANSWERS = ("script", "panel")  # the files of an exercise that a student changes
OWN_PARTS = ["task", "script", "check", "expected"]  # what an exercise of a lecturer's own has
SECONDS = 60  # for an answer, unless --seconds says another number
MOST_WRITTEN = 1 << 24
LONGEST_ANSWER = 1 << 20
MOST_SHOWN = 8


def listed_names():
    """Returns the names of docs/EXERCISES.md, in the order of its table."""
    with open(os.path.join(HERE, os.pardir, "docs", "EXERCISES.md"), encoding="utf-8") as page:
        return re.findall(r"^\| \d+ \| `([a-z-]+)` \|", page.read(), flags=re.M)


class Exercises:
    """The exercises by their names, each with its folder: those that are listed, then a lecturer's own, which are beside them or in
    another folder."""

    def __init__(self, folder=None):
        listed = listed_names()
        self.own = {name: path for above in filter(None, (HERE, folder)) for name, path in own_folders(above, listed)}
        self.folders = {**{name: os.path.join(HERE, name) for name in listed}, **self.own}

    def folder(self, name):
        if name not in self.folders:
            raise Failure(f"there is no exercise {name}; they are {', '.join(self.folders)}")
        return self.folders[name]


def own_folders(above, listed):
    """Yields the names and the folders of the exercises that are not listed. Says which folder lacks a file."""
    for entry in sorted(os.scandir(above), key=lambda entry: entry.name):
        there = [part for part in OWN_PARTS if os.path.isfile(os.path.join(entry.path, part))]
        if there == OWN_PARTS and entry.name not in listed:
            yield entry.name, entry.path
        elif {"task", "check"} & set(there) and entry.name not in listed:
            missing = ", ".join(part for part in OWN_PARTS if part not in there)
            complain(f"{entry.path} is no exercise, for it has no {missing}; exercises/new makes what is missing")


def add_folder(parser):
    parser.add_argument("--exercises", metavar="DIR", help="a folder with exercises of your own, beside those that are here")


@functools.lru_cache(maxsize=None)
def program():
    """Returns the words that run the simulator: $PP6600, or else that of the checkout or of the installation."""
    named = os.environ.get("PP6600")
    return checked_program(*([named] if named else chosen_program()))


def read(folder, name):
    with open(os.path.join(folder, name), "rb") as file:
        return file.read()


def answer(own, folder):
    """Returns the files of a student's answer to the exercise in a folder, or None if it is not there or as it was handed out."""
    wanted = [part for part in ANSWERS if os.path.exists(os.path.join(own, part))]
    found = {}
    for part in wanted:
        path = os.path.join(folder, part)
        kind = os.lstat(path) if os.path.lexists(path) else None
        if kind and (not stat.S_ISREG(kind.st_mode) or kind.st_size > LONGEST_ANSWER):
            raise Failure(f"{path} is no plain file of at most {LONGEST_ANSWER} (decimal) bytes")
        if kind:
            found[part] = read(folder, part)
    return found if any(found.get(part, read(own, part)) != read(own, part) for part in wanted) else None


def prepared(own, found, room):
    """Puts the files of the exercise and of the answer into the room, and returns the words of the simulator."""
    for part in os.listdir(own):
        if os.path.isfile(os.path.join(own, part)):
            shutil.copyfile(os.path.join(own, part), os.path.join(room, part))
    for part, data in found.items():
        with open(os.path.join(room, part), "wb") as file:
            file.write(data)
    args = read(room, "args").decode().splitlines() if os.path.exists(os.path.join(room, "args")) else []
    return [*program(), *(os.path.join(room, word) if word in os.listdir(room) else word for word in args)]


def script_of(room):
    """Returns the student's lines with a line end."""
    text = read(room, "script")
    return text if text.endswith(b"\n") or not text else text + b"\n"


def limited():
    resource.setrlimit(resource.RLIMIT_FSIZE, (MOST_WRITTEN, MOST_WRITTEN))


def performed(words, room, given, seconds):
    """Performs lines, given as bytes, and returns the status and the lines that were written."""
    with open(os.path.join(room, "written"), "wb") as out:
        process = subprocess.Popen(words, stdin=subprocess.PIPE, stdout=out, stderr=subprocess.PIPE, preexec_fn=limited if resource
                                   else None)
        try:
            _, error = process.communicate(given, timeout=seconds)
        except subprocess.TimeoutExpired:
            process.kill()
            process.communicate()
            return None, [f"it takes over {seconds} (decimal) seconds"]
    if process.returncode not in (0, 1):
        said = error.decode("utf-8", "replace").strip() or "the simulator ended early"
        return process.returncode, [said.splitlines()[-1]]
    return process.returncode, read(room, "written").decode("latin-1").splitlines()


def rejected_line(words, room):
    """Returns what says which line of the script was rejected first, or None."""
    console = Console(words)
    for number, line in enumerate(script_of(room).decode("latin-1").splitlines(), 1):
        for text in console.ask(line)[:1]:
            if text.startswith("ERR "):
                return f"line {number} (decimal) of the script is rejected, {text}: {line}"
    return None


def differences(wanted, written, is_hidden):
    """Yields the lines that are not as expected at the end; what is expected is hidden where it would be the answer."""
    if written[-len(wanted):] == wanted:
        return
    written = written[-len(wanted) - MOST_SHOWN:]
    pairs = []
    for kind, first, last, start, end in difflib.SequenceMatcher(None, wanted, written, autojunk=False).get_opcodes():
        start = start if first else max(start, end - last)  # what the script wrote comes before
        if kind != "equal":
            pairs += itertools.zip_longest(wanted[first:last], written[start:end])
    for right, got in pairs[:MOST_SHOWN]:
        if right is not None:
            yield "expected  another line" if is_hidden else f"expected  {right}"
        yield f"written   {got or ''}"


def steps(text):
    """Returns the lines of a script that make turns, with their numbers."""
    lines = text.decode("latin-1").splitlines()
    return [(number, line.strip()) for number, line in enumerate(lines, 1) if line.upper().split()[:1] == ["STEP"]]


def step_left(own, room):
    """Returns what says which STEP the script has beyond those that were handed out, if any; or None."""
    left = steps(read(room, "script"))[len(steps(read(own, "script"))):]
    if not left:
        return None
    number, line = left[0]
    return (f"line {number} (decimal) of the script is {line}: leave it out, for the check makes the turns itself and expects "
            f"their slots")


def seconds(text):
    """Returns a time limit of the command line."""
    if not re.fullmatch("[1-9][0-9]{0,5}", text):
        raise BadWord(f"{text} is no number of seconds, decimal and 1 or more")
    return int(text)


def add_limit(parser):
    parser.add_argument("--seconds", metavar="N", type=seconds, default=SECONDS,
                        help=f"how long the simulator may take for an answer, decimal ({SECONDS})")


def check(own, folder, limit):
    """Checks the answer in a folder to the exercise in another one, within so many seconds. Returns whether it is there, and what
    is wrong with it, if anything."""
    try:
        found = answer(own, folder)
    except Failure as failure:
        return True, [str(failure)]
    return (False, ["it is as it was handed out"]) if found is None else (True, faults_of(own, found, limit))


def faults_of(own, found, limit):
    """Returns what is wrong with an answer, given as its files."""
    with tempfile.TemporaryDirectory() as room:
        words = prepared(own, found, room)
        status, written = performed(words, room, script_of(room) + read(room, "check"), limit)
        if status not in (0, 1):
            return written
        is_hidden = os.path.exists(os.path.join(own, "hidden"))
        faults = list(differences(read(room, "expected").decode().splitlines(), written, is_hidden))
        left = step_left(own, room)
        if faults and left:
            faults.insert(0, left)
        if status == 1:
            faults.insert(0, rejected_line(words, room) or "a line of the check is rejected")
        return faults
