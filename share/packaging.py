"""What makes the packages: they pack the proved programs of a commit, and the same commit makes the same bytes."""

import calendar
import hashlib
import io
import os
import re
import subprocess
import sys
import tarfile
import tempfile
import time

TOP = os.path.dirname(os.path.dirname(os.path.realpath(__file__)))
LATEST = (1 << 32) - 1  # seconds, the latest time that an archive of each kind can have
NO_LICENCE = "No licence has been chosen yet."
MADE_HERE = re.compile(r"share/pp6600/docs/(definitions\.html|films/(?!overwritten-loader\.))")  # by make; no commit has them

from pp6600.failure import Failure  # noqa: E402
from pp6600.shell import installation  # noqa: E402
from pp6600.shell.archives import gzipped  # noqa: E402
from pp6600.shell.manifest import File, SymbolicLink, with_folders  # noqa: E402


def name():
    return os.path.basename(sys.argv[0])


def fail(message):
    print(f"{name()}: {message}", file=sys.stderr)
    sys.exit(2)


def output(*words, **how):
    """Returns what a command writes; if it fails, its own reason is said."""
    try:
        done = subprocess.run(words, **{"cwd": TOP, **how}, capture_output=True, text=True, check=False)
    except OSError as error:
        fail(f"{words[0]}: {error.strerror}")
    if done.returncode:
        fail(" ".join(done.stderr.split()) or f"{words[0]} failed")
    return done.stdout.rstrip("\n")


def read(*names):
    with open(os.path.join(TOP, *names), "rb") as file:
        return file.read()


def version():
    return read("VERSION").decode().strip()


def moment():
    """Returns the time of all files in a package: $SOURCE_DATE_EPOCH, or else the day of this version in CHANGELOG.md."""
    given = os.environ.get("SOURCE_DATE_EPOCH")
    if given:
        if not re.fullmatch("[0-9]{1,10}", given) or int(given) > LATEST:
            fail(f"SOURCE_DATE_EPOCH is {given}, which is no number of seconds from 0 to {LATEST}")
        return int(given)
    day = re.search(rf"^## {re.escape(version())}\b.* - (.*)$", read("CHANGELOG.md").decode(), flags=re.M)[1]
    return calendar.timegm(time.strptime(day, "%Y-%m-%d"))


def pack_commit(target):
    """Ends this program in a checkout of git, when it has been run for this folder in a copy that has the files of the commit
    alone. It fails if the checkout is not as committed. What was unpacked from an archive has no git, and is taken as it is."""
    if not os.path.exists(os.path.join(TOP, ".git")):
        return
    changed = output("git", "status", "--porcelain")
    if changed:
        fail(f"the checkout is not as committed: {changed.splitlines()[0].strip()}; commit or take it away first")
    with tempfile.TemporaryDirectory() as room:
        index = {**os.environ, "GIT_INDEX_FILE": os.path.join(room, "index")}  # one without what was said of single files
        output("git", "read-tree", "HEAD", env=index)
        output("git", "checkout-index", "--all", f"--prefix={room}/commit/", env=index)
        program = os.path.join(room, "commit", "share", name())
        sys.exit(subprocess.run([sys.executable, program, target], check=False).returncode)


def folder(text):
    """Returns the folder that the words of the command line name, or out; after --help it ends."""
    if sys.argv[1:] == ["--help"]:
        print(text)
        sys.exit(0)
    if len(sys.argv) > 2 or sys.argv[1:] and (not sys.argv[1] or sys.argv[1].startswith("-")):
        fail("give FOLDER, or no word; --help shows more")
    return os.path.abspath(sys.argv[1]) if sys.argv[1:] else os.path.join(TOP, "out")


def programs(machine):
    """Returns the paths of the programs of dist for a machine, by their names; none if it is empty."""
    try:
        found = installation.programs_for(machine or "x86_64", "--dist")  # it fails if the sources have changed
    except Failure as failure:
        fail(str(failure))
    return found if machine else {}


def of_commit(programs, *made, **how):
    """Returns what a checkout installs, with these programs, but without pages that were made here, unless they are named."""
    found = installation.of_this_checkout(programs, **how)
    return installation.without_lost_links(
        {path: entry for path, entry in found.items() if path in made or not MADE_HERE.match(path)})


def has_programs(machine):
    """Returns whether dist has a program for a machine."""
    return any(os.path.exists(os.path.join(TOP, "dist", name)) for name in installation.NAMES[machine])


def archive(top, files, moment):
    """Returns the bytes of an archive of files and links in a folder."""
    written = io.BytesIO()
    names = sorted({above for path in files for above in with_folders(f"{top}/{path}")})
    with tarfile.open(fileobj=written, mode="w", format=tarfile.USTAR_FORMAT) as tar:
        for name in names:
            entry, found = tarfile.TarInfo(name), files.get(name[len(top) + 1:])
            entry.mtime, entry.uname, entry.gname = moment, "root", "root"
            entry.mode = 0o644 if isinstance(found, File) and not found.runs else 0o755
            if isinstance(found, SymbolicLink):
                entry.type, entry.linkname, entry.mode = tarfile.SYMTYPE, found.target, 0o777
            elif found is None:
                entry.type = tarfile.DIRTYPE
            else:
                entry.size = len(found.data)
            tar.addfile(entry, io.BytesIO(found.data) if isinstance(found, File) else None)
    return gzipped(written.getvalue())


def save(folder, file_name, data):
    """Writes a package, and beside it a file with its sha256."""
    os.makedirs(folder, exist_ok=True)
    for path, content in ((file_name, data),
                          (f"{file_name}.sha256", f"{hashlib.sha256(data).hexdigest()}  {file_name}\n".encode())):
        with open(os.path.join(folder, path), "wb") as file:
            file.write(content)
    print(f"{name()}: {os.path.join(folder, file_name)}")
