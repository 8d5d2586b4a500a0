"""Scripts and tables of the pages that several tests use, and terminals for tools."""

import glob
import os
import re
import subprocess

from tests.cases import Stored, part
from tests.support import EXAMPLES, PYTHON, TOP, blocks, program

DECK, LOADER = (os.path.join(EXAMPLES, "overwritten-loader", name) for name in ("deck", "loader.pp"))
# Each tool with words that are right, and what those without a simulator read.
WITH_SIMULATOR = {"changes": ["M", "0", "106"], "origin": ["M", "0", "106"], "save": ["0", "0", "1"],
                  "compare": ["--other-panel", "examples/dead-start/panel"], "show": [], "state": [], "talk": [], "trace": [],
                  "until": ["P", "0", "=", "1"], "waits": [], "film": ["-o", os.devnull]}
WITHOUT = {"assemble": [], "deck": [], "disassemble": [], "load": ["0", "100"], "symbols": [], "words": ["--back", "1405"]}
GIVEN = {"assemble": "  LDN 5\n", "deck": "HELLO.\n", "disassemble": "0100 1405\n", "load": "1405\n", "symbols": "A 5\n",
         "words": ""}


def at_terminal(name, *words):
    """Returns what a tool writes at a terminal."""
    spawn = "import pty, sys; pty.spawn(sys.argv[1:])"
    done = subprocess.run([*PYTHON, "-c", spawn, *PYTHON, os.path.join(TOP, "tools", name), *words], stdin=subprocess.DEVNULL,
                          stdout=subprocess.PIPE, env={**os.environ, "PP6600": program()}, cwd=TOP, check=False)
    return done.stdout.decode().replace("\r\n", "\n")


# ---- the pages

PAGES = ["README.md", *sorted(os.path.relpath(path, TOP) for path in glob.glob(os.path.join(TOP, "docs", "*.md")))]


def sessions():
    """Returns each session, by its place, as a case. The files that it names are those of examples/."""
    found = []
    for page in PAGES:
        for block in blocks(page, "session"):
            if block.words[1:] != ["continued"]:
                words = block.words[1:]
                found.append((block.place, words, [word for word in words if os.path.isfile(os.path.join(EXAMPLES, word))], [], []))
            for line in block.text.splitlines(keepends=True):
                found[-1][3 if line.startswith(">") else 4].append(re.sub("^> ?", "", line).encode())
    return [Stored(place, words, b"".join(script), {name: part(EXAMPLES, name) for name in files}, b"".join(answers),
                   status=int(any(line.startswith(b"ERR ") for line in answers))) for place, words, files, script, answers in found]
