"""What an installation of the simulator has, and how it is put below a folder and taken away again; which program a checkout runs.

An installation is a manifest: paths below a prefix, each with a file or a link. That of a checkout is made from its files, that of
an installation is read from its list. Nothing but Python's standard library is used."""

from __future__ import annotations

import contextlib
import functools
import os
import re
import shutil
import signal
import subprocess
import sys
import tempfile
from typing import Dict, Iterable, Iterator, List, Optional, Tuple

from ..__main__ import MODULES
from ..engine.choice import HOME, LIBRARIES, MACHINE_HERE, NAMES, first_that_starts, handed_out, of_checkout, verified
from ..failure import Failure
from .archives import gzipped
from .completions import filled
from .files import checked_program
from .libraries import for_c, for_javascript
from .manifest import Entry, File, Manifest, SymbolicLink, entry_at, files_below, read, with_folders
from .text_files import bytes_of

# the checkout, or OWN below a prefix
TOP = os.path.dirname(os.path.dirname(os.path.dirname(os.path.dirname(os.path.realpath(__file__)))))
IS_CHECKOUT = os.path.exists(os.path.join(TOP, "share", "which-build"))

# Below the prefix of an installation:
OWN = "libexec/pp6600"
PAGES = "share/pp6600"
LIST = f"{OWN}/installed"  # the paths, one a line
FILM = f"{PAGES}/docs/films/dead-start-from-cards.html"  # it shows the solution of an exercise
LEFT_OUT = (b'<!DOCTYPE html><meta charset="utf-8"><title>Left out</title>\n<p>This film shows the answer to an exercise. The '
            b'lecturer has it.\n')

LAUNCHER = "launcher"  # to which the installer and each tool are links
IN_PAGES = ("README.md", "CHANGELOG.md", "CONTRIBUTING.md", "SECURITY.md", "docs", "examples", "exercises", "share/editors")
IN_OWN = {"pp6600-python": "pp6600-python", "VERSION": "VERSION", "commands": "share/commands", "pp6600.cmd": "pp6600.cmd",
          LAUNCHER: "share/launcher",
          "scripts/__init__.py": "share/scripts/__init__.py", "scripts/install.py": "share/scripts/install.py"}
OF_CHECKOUT = re.compile(r"docs/(.*\.(py|txt)|evaluate)$")  # what makes pages, or needs the sources
ALL = "all"  # for each machine
PAGE_MODULE = "pp6600.wasm"  # with which a page of any machine runs
LOADED = (".so", ".dll", ".wasm", ".a")  # how files end that are loaded or linked, and not run
FRESH, OLDER = ".pp6600-new", ".pp6600-old"  # behind the name of a file until all that is new is there
# A link of a page, with its text; the file that it leads to is before a #.
LINKS = {".md": re.compile(r"!?\[(?P<text>[^\[\]]*)\]\((?P<file>[^)#:\s]+)[^)]*\)"),
         ".html": re.compile(r"""<a\b[^>]*? href="(?P<file>[^"#:]+)[^>]*>(?P<text>.*?)</a>""", re.S)}


def page_module() -> bytes:
    """Returns the simulator with which a page runs: that of a checkout or of a class, whose folder has it in dist, or of an
    installation."""
    for path in (os.path.join(HOME, "dist", PAGE_MODULE), os.path.join(HOME, PAGE_MODULE)):
        if os.path.exists(path):
            return bytes_of(path)
    raise Failure(f"there is no {PAGE_MODULE} here, with which a page runs")


def part(path: str) -> Manifest:
    """Returns a file of the checkout, or the files below a folder of it, by their paths from its top."""
    whole = os.path.join(TOP, path)
    return {path: read(whole)} if os.path.isfile(whole) else {f"{path}/{name}": entry for name, entry in files_below(whole).items()}


@functools.lru_cache(maxsize=None)
def manual_pages() -> Manifest:
    """Returns the manual pages of a checkout."""
    with tempfile.TemporaryDirectory() as room:
        done = subprocess.run([sys.executable, os.path.join(TOP, "share", "manual"), room], capture_output=True, text=True,
                              check=False)
        if done.returncode:
            raise Failure(f"the manual pages can't be made: {done.stderr.strip()}")
        return {f"share/man/man1/{name}.gz": packed(os.path.join(room, name)) for name in os.listdir(room)}


def packed(path: str) -> File:
    """Returns a file in gzip's form."""
    return File(gzipped(read(path).data))


def completions() -> Manifest:
    """Returns the completions of shells; bash and fish look for a file with the name of the command."""
    bash, fish = "share/bash-completion/completions", "share/fish/vendor_completions.d"
    paths = {"bash": f"{bash}/pp6600", "fish": f"{fish}/pp6600.fish", "zsh": "share/zsh/site-functions/_pp6600"}
    texts = {shell: read(os.path.join(TOP, "share", f"completion.{shell}")).data.decode() for shell in paths}
    return {**{path: File(filled(shell, texts[shell]).encode()) for shell, path in paths.items()},
            **{f"{bash}/pp6600-{name}": SymbolicLink("pp6600") for name in MODULES},
            **{f"{fish}/pp6600-{name}.fish": SymbolicLink("pp6600.fish") for name in MODULES}}


def programs_for(machine: str, *options: str) -> Dict[str, str]:
    """Returns the paths of the proved programs of a checkout, by their names, for a machine such as x86_64; those for any if it is
    all. The options are those of share/which-build."""
    names = [name for one in NAMES if machine in (one, ALL) for name in (*NAMES[one], *LIBRARIES[one])]
    found: Dict[str, str] = {}
    for path in verified(TOP, [*names, PAGE_MODULE] if names else [], *options):
        found.setdefault(os.path.basename(path), path)
    return found


def of_this_checkout(programs: Dict[str, str], separate: bool = False) -> Manifest:
    """Returns what a checkout installs, with these programs by their names. If it is said, a library lies in a folder of its
    machine."""
    found: Manifest = {f"{OWN}/{name}": read(path)._replace(runs=not name.endswith(LOADED)) for name, path in programs.items()}
    found.update({f"{OWN}/{name}": read(os.path.join(TOP, path)) for name, path in IN_OWN.items()})
    found["bin/pp6600"] = read(os.path.join(TOP, "pp6600"))
    found["bin/pp6600-python"] = SymbolicLink(f"../{OWN}/pp6600-python")
    found.update({f"bin/pp6600-{name}": SymbolicLink(f"../{OWN}/tools/{name}") for name in MODULES})
    found.update({f"{OWN}/{path}": entry for path, entry in part("tools").items()})
    found.update({f"{OWN}/tools/{name}": SymbolicLink(f"../{LAUNCHER}") for name in MODULES},
                 **{f"{OWN}/install": SymbolicLink(LAUNCHER)})
    found.update({f"{PAGES}/{path}": entry for name in IN_PAGES for path, entry in part(name).items()
                  if not OF_CHECKOUT.match(path)})
    found[f"{PAGES}/tools"] = SymbolicLink(f"../../{OWN}/tools")
    found.update({f"share/doc/pp6600/{name}": SymbolicLink(f"../../pp6600/{name}")
                  for name in ("tools", *(path.split("/")[0] for path in IN_PAGES))})
    found.update(for_c(TOP, OWN, programs, separate))
    if PAGE_MODULE in programs:
        found.update(for_javascript(TOP, f"{OWN}/{PAGE_MODULE}"))
    found["share/doc/pp6600/changelog.gz"] = packed(os.path.join(TOP, "CHANGELOG.md"))
    return without_lost_links({**found, **completions(), **manual_pages()})


def whole(machine: Optional[str] = None, program: Optional[str] = None) -> Manifest:
    """Returns all that is installed, with the programs for a machine, else for this one; or with another build of the program."""
    own = {} if program is None else {"pp6600": checked_program(program)[0]}
    if IS_CHECKOUT:
        return of_this_checkout(own or programs_for(machine or MACHINE_HERE))
    if machine:
        raise Failure("the programs of other machines are in a checkout alone")
    prefix = os.path.normpath(os.path.join(TOP, os.pardir, os.pardir))
    found = {path: entry_at(os.path.join(prefix, path)) for path in listed(prefix) if path != LIST}
    return {**found, **{f"{OWN}/{name}": read(path) for name, path in own.items()}}


def without_solutions(manifest: Manifest) -> Manifest:
    """Returns a manifest without the solutions of the exercises."""
    kept = {path: entry for path, entry in manifest.items() if not re.match(f"{PAGES}/exercises/.*/solution/", path)}
    if FILM in kept:
        kept[FILM] = File(LEFT_OUT)
    return kept


def without_lost_links(manifest: Manifest) -> Manifest:
    """Returns a manifest in whose pages each link that leads to none of its files is replaced by its text."""
    paths = {above for path in manifest for above in with_folders(path)}
    folders = [(path, os.path.normpath(os.path.join(os.path.dirname(path), entry.target)))
               for path, entry in manifest.items() if isinstance(entry, SymbolicLink)]

    def is_there(path: str) -> bool:
        if path.split("/")[0] == "..":
            return False
        return path in paths or any(path.startswith(f"{link}/") and is_there(target + path[len(link):]) for link, target in folders)

    changed = dict(manifest)
    for path, entry in manifest.items():
        pattern = LINKS.get(os.path.splitext(path)[1])
        if pattern and isinstance(entry, File):
            def kept(found: "re.Match[str]", folder: str = os.path.dirname(path)) -> str:
                target = os.path.normpath(os.path.join(folder, found["file"]))
                return found[0 if is_there(target) else "text"]
            changed[path] = File(pattern.sub(kept, entry.data.decode("utf-8")).encode("utf-8"), entry.runs)
    return changed


def listed(prefix: str) -> List[str]:
    """Returns the paths that the installation below a prefix has, by its list. Fails if one leads out of the prefix, or is of
    another package."""
    whole = os.path.join(prefix, LIST)
    try:
        paths = bytes_of(whole).decode("utf-8").removesuffix("\n").split("\n")
    except UnicodeDecodeError as error:
        raise Failure(f"{whole} is no list of files, so nothing is changed") from error
    wrong = next((path for path in paths if not is_own(path)), None)
    if wrong is not None:
        raise Failure(f"{whole} names {wrong or 'nothing'}, which is no file of pp6600 below {prefix}; nothing is changed")
    return paths


def is_own(path: str) -> bool:
    """Returns whether a path can be one of an installation: below its prefix, with the name of this package in it."""
    names = path.split("/")
    return (not {"", os.curdir, os.pardir} & set(names) and "\0" not in path
            and any(re.match("_*(lib)?pp6600", name) for name in names))


def put(manifest: Manifest, folder: str) -> List[str]:
    """Writes files and links below a folder. All are written beside their places first, so if one can't be, all is as it was.
    Returns what it made: first the folders above, last what was beside its place."""
    made: List[str] = []
    try:
        for path, entry in sorted(manifest.items()):
            whole = os.path.join(folder, path)
            made += folders_made(os.path.dirname(whole))
            if os.path.isdir(whole) and not os.path.islink(whole):
                raise Failure(f"{whole} is a folder, and a file is to be there")
            made.append(whole + FRESH)
            write_entry(entry, whole + FRESH)
    except BaseException:
        for path in reversed(made):
            remove(path)
        raise
    with uninterrupted():
        for path in sorted(manifest):
            os.replace(os.path.join(folder, path) + FRESH, os.path.join(folder, path))
    return made


def folders_made(folder: str) -> List[str]:
    """Makes a folder, and those above it. Returns those that were not there, from above."""
    missing = []
    above = folder
    while above and not os.path.lexists(above):
        missing.append(above)
        above = os.path.dirname(above)
    os.makedirs(folder, exist_ok=True)
    return missing[::-1]


def write_entry(entry: Entry, path: str) -> None:
    """Writes a file or a link, in the place of another one."""
    if os.path.lexists(path):
        os.remove(path)
    if isinstance(entry, SymbolicLink):
        os.symlink(entry.target, path)
        return
    with open(path, "xb") as file:
        file.write(entry.data)
    os.chmod(path, 0o755 if entry.runs else 0o644)


def is_removable(path: str) -> bool:
    """Returns whether there is a file or a link."""
    return os.path.islink(path) or os.path.isfile(path)


def remove(path: str) -> None:
    """Removes a file, a link, or a folder that is empty; leaves any other folder."""
    if os.path.isdir(path) and not os.path.islink(path):
        if not os.listdir(path):
            os.rmdir(path)
    elif os.path.lexists(path):
        os.remove(path)


@contextlib.contextmanager
def uninterrupted() -> Iterator[None]:
    """Lets an interrupt wait, where the system can."""
    if not hasattr(signal, "pthread_sigmask"):
        yield
        return
    before = signal.pthread_sigmask(signal.SIG_BLOCK, {signal.SIGINT, signal.SIGTERM, signal.SIGHUP})
    try:
        yield
    finally:
        signal.pthread_sigmask(signal.SIG_SETMASK, before)


def list_of(paths: Iterable[str]) -> File:
    """Returns the list of an installation with these paths."""
    return File("".join(f"{path}\n" for path in sorted(paths)).encode())


def install(manifest: Manifest, prefix: str) -> None:
    """Puts an installation below a prefix, in the place of an older one. That one is as it was if this one can't be put. Until all
    is done the list has the paths of both, so that what is left of an installation that was killed can be taken away."""
    place = os.path.join(prefix, LIST)
    older, before = (listed(prefix), entry_at(place)) if os.path.lexists(place) else ([], None)
    folders = {above for path in (*manifest, LIST) for above in with_folders(os.path.dirname(path))}
    made = put({LIST: list_of({*older, *manifest, LIST})}, prefix)
    try:
        replace([path for path in older if path in folders], manifest, prefix)
    except BaseException:
        if before is None:
            os.remove(place)
        else:
            put({LIST: before}, prefix)
        for path in reversed(made):
            remove(path)
        raise
    remove_listed([path for path in older if path != LIST and path not in manifest and path not in folders], prefix)
    remove_unfinished([*older, *manifest], prefix)
    put({LIST: list_of([*manifest, LIST])}, prefix)


def replace(older: List[str], manifest: Manifest, prefix: str) -> None:
    """Puts files and links below a prefix, in the place of older ones where folders are to be."""
    in_the_way = [os.path.join(prefix, path) for path in older if is_removable(os.path.join(prefix, path))]
    for path in in_the_way:
        os.replace(path, path + OLDER)
    try:
        put(manifest, prefix)
    except BaseException:
        for path in in_the_way:
            os.replace(path + OLDER, path)
        raise


def is_installed(prefix: str) -> bool:
    """Returns whether there is an installation below a prefix, or what is left of one that was killed."""
    return any(os.path.exists(os.path.join(prefix, LIST) + ending) for ending in ("", FRESH))


def take_away(prefix: str) -> None:
    """Removes what is listed below a prefix, what Python has kept of it, and the folders that are then empty."""
    remove_listed([*(listed(prefix) if os.path.exists(os.path.join(prefix, LIST)) else ()), LIST], prefix)


def remove_unfinished(paths: Iterable[str], prefix: str) -> None:
    """Removes what an installation that was killed has left beside files."""
    for path in paths:
        for ending in (FRESH, OLDER):
            if is_removable(os.path.join(prefix, path) + ending):
                os.remove(os.path.join(prefix, path) + ending)


def remove_listed(paths: List[str], prefix: str) -> None:
    """Removes files and links below a prefix, what Python has kept of them, and the folders that are then empty. A link in the
    place of a folder stays, and so does a folder in the place of a file."""
    for path in paths:
        if is_removable(os.path.join(prefix, path)):
            os.remove(os.path.join(prefix, path))
    remove_unfinished(paths, prefix)
    folders = {above for path in paths for above in with_folders(os.path.dirname(path))}
    for folder in sorted(folders, reverse=True):
        whole = os.path.join(prefix, folder)
        if is_own(folder):
            shutil.rmtree(os.path.join(whole, "__pycache__"), ignore_errors=True)
        if not os.path.islink(whole):
            remove(whole)


def chosen_program() -> Tuple[str, ...]:
    """Returns the words that run the simulator: of a checkout the build that ./pp6600 runs, or else the program of the class, the
    installation or the package; or the one in Python, where none of these starts."""
    return first_that_starts(of_checkout(TOP) if IS_CHECKOUT else handed_out(HOME))
