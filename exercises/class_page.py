"""The page of a class: one file with the simulator and all exercises, and the answers that students save from it."""

import base64
import json
import os
import re
import time
import zlib

from checking import HERE, prepared, read, script_of, steps

from pp6600 import Failure
from pp6600.front.film import page
from pp6600.run.session import Session
from pp6600.shell.command_line import arguments
from pp6600.shell.installation import page_module
from pp6600.shell.text_files import lines_of

NAMED = re.compile(r"^\* EXERCISE (\S+)[ \t\r]*$", re.M)  # the note with which a session begins that is an answer
PANEL = re.compile(r"^\* PANEL ((?:[0-7]{1,4} ){11}[0-7]{1,4})[ \t\r]*$", re.M)
LINK = re.compile(r"#(?:\S*&)?script=([\w-]+)")
FILM = re.compile(r'<script type="text/plain" id="film">\s*(.*?)</script>', re.S)
LONGEST = 1 << 22  # of what is unpacked
TITLE = "Exercises"
# What a student of the page is asked, where the page of exercises speaks of files and commands.
IN_THE_PAGE = {
    "who-wrote-it": """PP 01, PP 02 and PP 03 clear words 1001 to 1004 and 1006 of central memory. Word 1005 should still be 15, but
it is zero. Which processor wrote it, and in which instruction? End your session just before that turn, so that the write is taken
back. Choose the place `C 1005`: the page says when it changed, and `[` goes there.""",
    "hanging-channel": """PP 00 sends three words to PP 01 on channel 03. Each stores a 1 in its cell 0050 when it has finished, but
only one finishes. Who waits, at which instruction, and for what? Look at the dashed lines of the barrel. Repair the programs by one
SET line. The repair must be right too if PP 01 is ready for more words than PP 00 sends.""",
    "loader-goes-round": """A loader at 0010 reads a card into the cells from 7760 on and jumps to 7760. But PP 00 goes astray.
Which turn overwrote cell 0000, and with which word? Choose `M 0 0`, and go to its changes. Either go back to just before it, end
the block by hand and go on; or correct the loader before it runs. In both cases the loader must read exactly the 20 columns of the
program from now on: correct the count at cell 0013 too.""",
    "dead-start-from-cards": """The deck is one card with a program for cells 0100 to 0122 of PP 00, which prints a line. Write the
twelve words of the panel, in the box below: start the card reader, read the card into memory, disconnect the channel, and jump to
0100. Then press the button below the box: the script is complete.""",
    "list-a-deck": """The deck has three cards. Columns 0 to 4 of a card hold ten symbols of display code. Write a program at 0100
that prints a line for each card, for any number of cards, and stores a 1 in cell 0050 when no card is left. Ask for the reader's
status before each card.""",
}


# ---- the page

def class_page(exercises, tutorials, title):
    """Returns the page with these exercises and tutorials."""
    module = page_module()
    about = {**page.tables(), **page.options(arguments("").parse_args([])), "labels": {}, "opens": None, "again": "",
             "files": [{"kind": "script", "name": "script", "bytes": ""}],
             "exercises": [exercise(name, path) for name, path in exercises.folders.items()], "tutorials": tutorials}
    return page.page(title or TITLE, module, about)


def exercise(name, folder):
    """Returns what the page has to know of an exercise, but not its solution."""
    there = {part: read(folder, part).decode("latin-1") for part in os.listdir(folder)
             if os.path.isfile(os.path.join(folder, part))}
    words = there.get("args", "").split("\n")
    asked = arguments("").parse_args([os.path.join(folder, word) if word in there else word for word in words if word])
    files = {part: there.get(part, "") for part in page.Files._fields}
    return {"name": name, "task": task_in_page(name, folder), "files": files, "options": page.options(asked),
            "check": there["check"], "expected": there["expected"], "isHidden": "hidden" in there}


def task_in_page(name, folder):
    """Returns what a student is asked in a browser, where there are no files and no commands."""
    is_own = os.path.exists(os.path.join(folder, "task"))
    return " ".join((task_of(name, folder) if is_own or name not in IN_THE_PAGE else IN_THE_PAGE[name]).split())


def task_of(name, folder):
    """Returns what a student is asked to do: that of a lecturer's own exercise, or else that of the page of exercises."""
    own = os.path.join(folder, "task")
    if os.path.exists(own):
        with open(own, encoding="utf-8") as file:
            return file.read().strip()
    with open(os.path.join(HERE, os.pardir, "docs", "EXERCISES.md"), encoding="utf-8") as file:
        return " ".join(re.search(rf"^Folder `{re.escape(name)}`[^.]*\. (.*?)\n\n", file.read(), flags=re.M | re.S)[1].split())


# ---- what students hand in

def sessions_in(data):
    """Yields the scripts of the sessions that are in a file: those of its links, those of a saved page, or the file itself."""
    text = data.decode("latin-1")
    film, links = FILM.search(text), LINK.findall(text)
    if film:
        yield from of_saved_page(json.loads(unpacked(film[1])))
    elif links:
        yield from (unpacked(link.replace("-", "+").replace("_", "/") + "=" * (-len(link) % 4), -15).decode("latin-1")
                    for link in links)
    else:
        yield text


def of_saved_page(film):
    """Yields what the page's Check has judged, and the sessions of the exercises at the moments at which they were left; or the
    script of a page that was not saved."""
    keeps = film.get("keeps")
    if not keeps:
        yield from (file["bytes"] for file in film["files"] if file["kind"] == "script")
        return
    yield from (kept["script"] for name, kept in keeps["kept"].items() if name.startswith("answer "))
    trees = {name: kept["tree"] for name, kept in keeps["sessions"].items()}
    for tree in {**trees, keeps["exercise"] or "run": keeps["tree"]}.values():
        session = next(one["session"] for one in tree["all"] if one["id"] == tree["now"])
        yield session.get("answer") or session["script"]


def unpacked(text, window=15):
    """Returns what was deflated and written in base 64."""
    try:
        unpacker = zlib.decompressobj(window)
        data = unpacker.decompress(base64.b64decode(re.sub(r"\s", "", text)), LONGEST)
        if unpacker.eof:
            return data
    except (ValueError, zlib.error):
        pass  # what follows says so
    raise Failure("it is cut short or damaged")


def answers_in(path):
    """Yields of each answer in a file the name of its exercise, its session, and its panel or None."""
    for session in sessions_in(read(*os.path.split(path))):
        name, panel = NAMED.search(session), PANEL.search(session)
        if name:
            yield name[1], session, panel and panel[1]


def answer_of(own, session, panel, room, limit):
    """Returns the files of an answer to the exercise in a folder: the settings that are in effect at the end of its session, and
    the turns too if the exercise's own script makes some. It is performed in a room, within so many seconds."""
    found = {"panel": f"{panel}\n".encode()} if panel else {}
    words = prepared(own, found, room)
    tape = in_effect(words, lines_of(session), limit)
    makes_turns = bool(steps(script_of(room)))
    lines = [line for line in tape.lines(0, tape.end, with_watches=False) if makes_turns or not line.upper().startswith("STEP")]
    return {**found, "script": "".join(f"{line}\n" for line in lines).encode("latin-1")}


def in_effect(words, lines, limit):
    """Returns the actions that are in effect after lines. These may take so many seconds; the time is looked at after each."""
    end = time.monotonic() + limit
    with Session(words) as run:
        for line in lines:
            run.act(line)
            if time.monotonic() > end:
                raise Failure(f"it takes over {limit} (decimal) seconds")
        return run.in_effect()
