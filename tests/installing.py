"""What the transcripts of tests/packages need of Python.

    python3 -m tests.installing checkout FOLDER   copies this checkout with one crate and the program under test in dist/, and
                                                  commits it
    python3 -m tests.installing links FOLDER      prints the links of all pages below a folder that lead to no file, and the links
                                                  in it that lead out of it or nowhere
"""

import hashlib
import os
import re
import shutil
import subprocess
import sys

from tests.cases import part
from tests.support import TOP, program, read, run, write

PATH = f"{os.path.dirname(sys.executable)}:/usr/sbin:/usr/bin:/sbin:/bin"  # where the Rattle kit is not
ALONE = {"PATH": PATH, "PP6600": "", "DESTDIR": "", "PYTHONDONTWRITEBYTECODE": "1"}
HEADER = "crates/pp_library/pp6600.h"
MAKES_PAGE = "import os\nopen(os.path.join(os.path.dirname(__file__), 'definitions.html'), 'w').close()\n"
LINKS = {".md": r"\]\(([^)#:\s]+)[^)]*\)", ".html": r' href="([^"#:]+)'}


def alone(*words, env=None, **how):
    """Runs a command without the kit, and without the variables that choose the program or another folder."""
    return run(*words, env={**ALONE, **(env or {})}, **how)


def lost_links(top):
    """Yields the links that `links` prints."""
    for folder, folders, names in os.walk(top):
        for name in names:
            link = LINKS.get(os.path.splitext(name)[1])
            found = re.findall(link, read(folder, name)) if link else []
            yield from (f"{name}: {target}" for target in found if not os.path.exists(os.path.join(folder, target)))
        paths = (os.path.join(folder, name) for name in folders + names)
        yield from (path for path in paths if os.path.islink(path) and not leads_inside(path, top))


def leads_inside(path, top):
    """Returns whether a link is relative and leads to what is in a folder."""
    return not os.readlink(path).startswith("/") and os.path.exists(path) and \
        os.path.commonpath([os.path.realpath(path), os.path.realpath(top)]) == os.path.realpath(top)


def checkout(folder):
    """Copies this checkout, and commits it at a fixed time."""
    shutil.copytree(TOP, folder, symlinks=True,
                    ignore=shutil.ignore_patterns("out", ".git", "__pycache__", "tests", "crates", "definitions.html"))
    for name in ("src", "specs", "proofs"):
        shutil.copytree(os.path.join(TOP, "crates", "pp_arith", name), os.path.join(folder, "crates", "pp_arith", name))
    write(os.path.join(folder, HEADER), read(HEADER))
    write(os.path.join(folder, "docs", "definitions.py"), MAKES_PAGE)  # the crates that are left out have the definitions
    shutil.copyfile(program(), os.path.join(folder, "dist", "pp6600"))
    os.chmod(os.path.join(folder, "dist", "pp6600"), 0o755)
    sums = "".join(f"{name} {hashlib.sha256(part(folder, f'dist/{name}')).hexdigest()}\n"
                   for name in sorted(os.listdir(os.path.join(folder, "dist"))) if name != "sources")
    checksum = alone("share/which-build", "--checksum", cwd=folder).out
    write(os.path.join(folder, "dist", "sources"), f"{sums}sources {checksum}kit of these tests\n")
    fixed = {"GIT_COMMITTER_DATE": "2026-01-02T03:04:05Z", "GIT_AUTHOR_DATE": "2026-01-02T03:04:05Z"}
    for words in (("init", "-q"), ("-c", "core.looseCompression=0", "add", "-A"),
                  ("-c", "user.name=tests", "-c", "user.email=tests@localhost", "commit", "-q", "-m", "tests")):
        subprocess.run(["git", *words], cwd=folder, env={**os.environ, **fixed}, check=True)


if __name__ == "__main__":
    if sys.argv[1] == "checkout":
        checkout(sys.argv[2])
    else:
        print("".join(f"{link}\n" for link in lost_links(sys.argv[2])), end="")
