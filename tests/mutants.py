#!/usr/bin/env python3
"""Tries the mutants of crates, crates/CRATE/mutants/NAME.edit: tests/mutants.py [--anew] [CRATE ..]

Those of a crate are tried in one check. Beside each function that mutants break stands a copy for each of them, with the mutant's
text and the function's own clauses, attributes and proof files. The function itself stays, so nothing above it is touched, and only
the copies are checked. A mutant is refused if its copy has a goal that is not proved, or an answer that does not follow. The
control, a copy without a change, of each function that has proof files must be proved too: else its mutants count for nothing.

What can't be copied (methods of traits, definitions, constants), and what was not refused so, is tried alone, by a check of what it
changes; what that does not refuse, by the kit's own try of the whole crate. If that accepts it, it fails.

The crates must be built as they are: rt ci or ./prove does it. What was refused on this machine is kept, by the checksums of all
that was read, and not tried again without --anew. The last line is 'N passed, M failed'.
"""

from __future__ import annotations

import sys

if not getattr(sys.flags, "safe_path", False):
    del sys.path[0]  # nothing beside this file is taken for a module of Python's own
import argparse
import concurrent.futures
import dataclasses
import functools
import hashlib
import os
import re
import runpy
import shutil
import subprocess
import tempfile
import types
from pathlib import Path

TOP = Path(__file__).resolve().parents[1]
KEPT = Path(os.environ.get("XDG_CACHE_HOME") or Path.home() / ".cache") / "pp6600-mutants"
MEMORY_OF_A_CHECK = 3_000_000_000  # bytes, at most
FUNCTION = re.compile(r"( *)(?:pub(?:\([^)]*\))? )?(?:const )?(?:unsafe )?(?:extern \"C\" )?fn (\w+)")
OWNER = re.compile(r"(?:pub )?(?:unsafe )?(?:impl|trait)\b")
PAIR = re.compile(r"^(?:file: (.*)\n)?old: (.*)\nnew: ?(.*)$", re.M)
GOAL = r"no proof: expected .* did not prove "
LOST_NAME = re.compile(r"has no field|is not in scope|has no `|was not admitted")
OF_KIT = runpy.run_path(str(TOP / "tests/refusals.py"))  # how the kit's own tries are judged


read = functools.partial(Path.read_text, encoding="utf-8")


@dataclasses.dataclass(frozen=True)
class Function:
    """A function of a source file: what it is a method of, or "", its first line, that after its last, whether it can be copied."""
    file: str
    name: str
    owner: str
    first: int
    end: int
    is_plain: bool

    def path(self, ending: str = "") -> str:
        return "::".join(filter(None, (self.owner, self.name + ending)))

    def proofs(self, folder: Path) -> list[Path]:
        """Returns the folders with its proof files, in the folder of its crate."""
        if self.owner:
            return sorted(filter(Path.is_dir, folder.glob(f"proofs/**/{self.owner}/{self.name}")))
        module = [part for part in self.file[len("src/"):-len(".rt")].split("/") if part not in ("lib", "main", "mod")]
        return list(filter(Path.is_dir, [folder.joinpath("proofs", *module, self.name)]))


@dataclasses.dataclass
class Mutant:
    """An edit, its pairs of old and new text for each function that it changes, or none, and the paths of its copies."""
    path: Path
    parts: dict[Function, list[tuple[str, str]]]
    copies: list[str] = dataclasses.field(default_factory=list)


def owner_of(lines: list[str], head: int) -> tuple[str, bool]:
    """Returns what a function with its head at a line is a method of, as the prover prints it, and whether that is a type alone."""
    opened = next(line for line in reversed(lines[:head]) if OWNER.match(line))
    while re.search(r"<[^<>]*>", opened):
        opened = re.sub(r"<[^<>]*>", "", opened)
    before, _, type_of_trait = re.split(r"\bwhere\b|:(?!:)", opened)[0].partition(" for ")
    name = re.findall(r"\w+", before)[-1]
    return (re.findall(r"\w+", type_of_trait)[-1] + name, False) if type_of_trait else (name, "trait" not in before)


def function_at(file: str, lines: list[str], row: int) -> Function | None:
    """Returns the function to which a line belongs."""
    for head in (at for at, line in enumerate(lines) if FUNCTION.match(line)):
        indent, name = FUNCTION.match(lines[head]).groups()
        first, end = head, head + 1
        while first and lines[first - 1].strip() and not re.match(rf"{indent}\}}|.*\{{$", lines[first - 1]):
            first -= 1
        while end < len(lines) and not lines[head].endswith("}") and lines[end - 1] not in (f"{indent}}}", f"{indent}{{}}"):
            end += 1
        if first <= row < end:
            owner, is_plain = owner_of(lines, head) if indent else ("", True)
            return Function(file, name, owner, first, end, is_plain and name != "main" and "#[cycle" not in str(lines[first:end]))
    return None


def read_mutant(folder: Path, path: Path) -> Mutant:
    """Reads an edit of the crate in a folder."""
    parts: dict[Function, list[tuple[str, str]]] = {}
    file = ""
    for named, old, new in PAIR.findall(read(path)):
        file = named or file
        text = read(folder / file) if file.startswith("src/") else ""
        found = function_at(file, text.split("\n"), text.count("\n", 0, text.index(old))) if text.count(old) == 1 else None
        if not found:
            return Mutant(path, {})
        parts.setdefault(found, []).append((old, new))
    return Mutant(path, parts)


class Copies:
    """The files of a crate with copies of its functions."""
    def __init__(self, folder: Path) -> None:
        self.folder, self.added, self.files = folder, {}, {}

    def add(self, function: Function, ending: str, pairs: list[tuple[str, str]]) -> str:
        """Adds a copy of a function, changed, and returns its path."""
        lines = read(self.folder / function.file).split("\n")
        body = "\n".join(line for line in lines[function.first:function.end] if not line.lstrip().startswith("///"))
        for old, new in pairs:
            body = body.replace(old, new)
        name = function.name + ending
        body = re.sub(rf"\bfn {function.name}\b", f"fn {name}", body)
        self.added.setdefault(function.file, []).append((function.end, body))
        for proofs in function.proofs(self.folder):
            dotted = ".".join(proofs.relative_to(self.folder / "proofs").parts)
            renamed = f"{dotted.rpartition('.')[0]}.{name}"
            for file in filter(Path.is_file, proofs.rglob("*")):
                path = (proofs.with_name(name) / file.relative_to(proofs)).relative_to(self.folder)
                self.files[str(path)] = re.sub(rf"\b{re.escape(dotted)}(?=[.\s{{])", renamed, read(file))
        return function.path(ending)

    def texts(self) -> dict[str, str]:
        """Returns the texts of all files that are new or changed, by their paths."""
        for file, added in self.added.items():
            lines = read(self.folder / file).split("\n")
            for end, body in sorted(added, key=lambda it: -it[0]):
                lines[end:end] = ["", body]
            self.files[file] = "\n".join(lines)
        return self.files


class Crate:
    """A crate whose mutants are tried."""
    def __init__(self, rt, name: str, anew: bool) -> None:
        self.rt, self.anew = rt, anew
        self.kit = rt.rtlib.Crate(str(TOP / "crates" / name), str(TOP), {})
        self.words, self.folder = self.kit.words(["--jobs", "1"], keeps=False), Path(self.kit.folder)

    def check(self, texts: dict[str, str], calls: list[str], work: str) -> tuple[int, list[str]]:
        """Checks calls in a copy of the crate with these texts, over the work in a folder. Returns the status and the lines."""
        with tempfile.TemporaryDirectory(prefix="pp6600-mutants-") as room:
            shutil.copytree(self.folder, room, dirs_exist_ok=True, ignore=shutil.ignore_patterns("out", "mutants"))
            for path, text in texts.items():
                os.makedirs(os.path.dirname(f"{room}/{path}"), exist_ok=True)
                Path(room, path).write_text(text, encoding="utf-8")
            only = [word for call in calls for word in ("--only", call)]
            done = subprocess.run([self.rt.rtlib.RATTLE, "check", *self.words, "--incremental", work, *only], cwd=room, check=False,
                                  encoding="utf-8", errors="replace", stdout=subprocess.PIPE, stderr=subprocess.STDOUT)
            return done.returncode, done.stdout.split("\n")

    def refused_copies(self, mutants: list[Mutant], work: str) -> list[Mutant]:
        """Returns those of some mutants whose copies are refused in one check; halves them if one spoils it for the others."""
        copies, controls = Copies(self.folder), {}
        for number, mutant in enumerate(mutants):
            mutant.copies = [copies.add(function, f"_mutant_{number}", pairs) for function, pairs in mutant.parts.items()]
            for function in filter(lambda it: it not in controls and it.proofs(self.folder), mutant.parts):
                controls[function] = copies.add(function, "_as_it_is", [])
        status, lines = self.check(copies.texts(), [*(path for it in mutants for path in it.copies), *controls.values()], work)
        if status != 1 or not any(line.startswith("fn ") for line in lines):
            half = len(mutants) // 2
            return [*self.refused_copies(mutants[:half], work), *self.refused_copies(mutants[half:], work)] if half else []
        proves = lambda path: any(re.match(rf"fn \S*\b{path}: proved$", line) for line in lines)
        lost = {function for function, path in controls.items() if not proves(path)}
        return [it for it in mutants if not lost & set(it.parts) and any(is_refused(path, lines) for path in it.copies)]

    def is_refused_alone(self, mutant: Mutant, work: str) -> bool:
        """Returns whether a mutant is refused by a check of what it changes, or by the kit's own try of the whole crate."""
        texts, why = self.rt.read_edit(str(mutant.path), str(self.folder))
        if why:
            print(f"{mutant.path.relative_to(TOP)}: {why}")
            return False
        calls = [function.path() for function in mutant.parts] or re.findall(r"^# call: \w+::(\S+)", read(mutant.path), re.M)
        status, lines = self.check(texts, calls, work)
        if status == 1 and not any(self.rt.unread(line, texts) for line in lines) and is_refused(r"\w+", lines):
            return True
        kind, text = self.rt.must_fail(self.kit, str(mutant.path), ["--jobs", "1"], work)
        is_judged = OF_KIT["REFUSED"].search(text) and not LOST_NAME.search(text) and not OF_KIT["only_renames"](mutant.path)
        print(text, flush=True)
        return bool(kind == self.rt.REFUSED and is_judged)

    def key(self, mutant: Path) -> Path:
        """Returns where it is kept that a mutant was refused."""
        judges = [Path(__file__), TOP / "tests/refusals.py", Path(self.rt.KIT, "KIT-ID"), mutant]
        return KEPT / hashlib.sha256(b"\0".join([self.kit.stamp().encode(), *map(Path.read_bytes, judges)])).hexdigest()

    def try_all(self) -> tuple[int, list[Path]]:
        """Tries all mutants. Returns how many were refused, and those that were not."""
        paths = sorted(self.folder.glob("mutants/*.edit"))
        left = [read_mutant(self.folder, path) for path in paths if self.anew or not self.key(path).exists()]
        with tempfile.TemporaryDirectory(prefix="pp6600-mutants-") as work:
            together = [it for it in left if it.parts and all(function.is_plain for function in it.parts)]
            copied = self.refused_copies(together, work) if together else []
            alone = [it for it in left if it not in copied and self.is_refused_alone(it, work)]
        KEPT.mkdir(parents=True, exist_ok=True)
        for it in [*copied, *alone]:
            self.key(it.path).touch()
        failed = [it.path for it in left if it not in copied and it not in alone]
        counts = f"{len(copied)} in one check, {len(alone)} alone, {len(paths) - len(left)} kept"
        print(f"{self.kit.name}: {len(paths) - len(failed)} refused: {counts}", flush=True)
        return len(paths) - len(failed), failed


def is_refused(path: str, lines: list[str]) -> bool:
    """Returns whether lines of a check say that a goal of a function is not proved, or that an answer in its proof files does not
    follow, and not that these name what is gone."""
    answers = [line for line in lines if re.match(rf"(\./)?proofs/(\S+/)?{path.rpartition('::')[2]}/\S+:\d+:\d+: error", line)]
    has_goal = any(re.match(rf"fn (\S*::)?{path}: {GOAL}", line) for line in lines)
    return (has_goal or bool(answers)) and not any(LOST_NAME.search(line) for line in answers)


def main() -> int:
    words = argparse.ArgumentParser(description="Tries the mutants of crates, all or these.")
    words.add_argument("--anew", action="store_true", help="also those that were refused before on this machine")
    words.add_argument("crates", nargs="*", metavar="CRATE")
    words = words.parse_args()
    edits = {path.parent.name: len(list(path.glob("*.edit"))) for path in TOP.glob("crates/*/mutants")}
    for name in (name for name in words.crates if name not in edits):
        sys.exit(f"tests/mutants.py: {name} has no mutants")
    rt = types.SimpleNamespace(**runpy.run_path(os.path.realpath(shutil.which("rt") or "rt")))
    rt.rtlib.guarded()  # its first call sets a signal's handler, which only the main thread may
    crates = [Crate(rt, name, words.anew) for name in sorted(words.crates or edits, key=lambda name: -edits[name])]
    with concurrent.futures.ThreadPoolExecutor(max(1, min(rt.processors(), rt.free() // MEMORY_OF_A_CHECK))) as pool:
        tried = list(pool.map(Crate.try_all, crates))
    for path in (path for _, failed in tried for path in failed):
        print(f"failed: {path.relative_to(TOP)}")
    print(f"{sum(count for count, _ in tried)} passed, {sum(len(failed) for _, failed in tried)} failed")
    return 1 if any(failed for _, failed in tried) or not tried else 0


if __name__ == "__main__":
    sys.exit(main())
