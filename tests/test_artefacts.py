"""Tests that the artefacts of dist/ for other machines and other programs answer as the program does, byte for byte: the rows of
test_scripts, the sessions of the pages, the stored cases, and 30 random sessions. What can't run here is skipped, and said. Those
for Windows are in test_windows.

PP6600_ARTEFACTS names another folder than dist/."""

import base64
import concurrent.futures
import functools
import glob
import hashlib
import itertools
import json
import os
import platform
import re
import resource
import shlex
import shutil
import struct
import subprocess
import sys
import tempfile

from tests import browser, cases
from tests.built import FOLDER, artefact, rows
from tests.cases import Stored, part
from tests.fixtures import sessions as sessions_of_pages
from tests.generator import Maker
from tests.support import PATIENCE, TOP, Case, program, read, write
from tests.ways import outcome, performed

from pp6600.engine import library
from pp6600.engine.arguments import NUMBERS
from pp6600.engine.plain.lines import Rejected
from pp6600.engine.plain.program import read_options, read_words

TARGETS, CLIENTS = os.path.join(TOP, "targets"), os.path.join(TOP, "tests", "artefacts")
WEB = os.path.join(TOP, "tools", "pp6600", "front", "film", "web")
HEADER = os.path.join(TOP, "crates", "pp_library", "pp6600.h")
RANDOM = 30
CORES = len(os.sched_getaffinity(0))
SONAME = "libpp6600.so.1"  # what is linked with a shared library asks for this name
WARNINGS = "-Wall -Wextra -Wconversion -Wsign-conversion -Werror".split()


def run_all(sessions, *command, **how):
    """Returns what each session comes to; as many run at a time as there are cores."""
    with concurrent.futures.ThreadPoolExecutor(CORES) as pool:
        return list(pool.map(lambda session: outcome(session, *command, **how), sessions))


@functools.lru_cache(maxsize=None)
def all_sessions():
    """Returns all sessions, and what the program comes to."""
    plain = [case for _, case in cases.named() if not case.how]
    sessions = [*rows(), *sessions_of_pages(), *plain,
                *(Maker(f"artefacts {seed}").session().stored(f"random {seed}") for seed in range(RANDOM))]
    return sessions, run_all(sessions, program())


class Artefacts(Case):
    """What tests of artefacts share."""

    def tool(self, *names):
        """Returns the path of a tool, the first of these names that is here, or skips the test."""
        found = next(filter(None, map(shutil.which, names)), None)
        return found or self.skipTest(f"{names[0]} is missing")

    def check_all(self, name, sessions, wanted, found):
        differing = [session.name for session, one, other in zip(sessions, wanted, found) if one != other]
        self.assertEqual((len(sessions), []), (len(found), differing),
                         f"{name} differs from the program in {len(differing)} sessions")

    def for_node(self, name):
        """Returns the paths of a client in JavaScript, of the library and of the module, copied: node reads no path that is not
        UTF-8."""
        paths = os.path.join(CLIENTS, name), os.path.join(WEB, "engine", "library.mjs"), artefact("pp6600.wasm")
        return [shutil.copy(path, self.folder) for path in paths]

    def on(self, machine):
        """Skips the test on another machine than this one."""
        if platform.machine() != machine:
            self.skipTest(f"this machine is no {machine}")


class Programs(Artefacts):
    """The program for other systems."""

    def check(self, name, *command, leaves_out=None, **how):
        sessions, wanted = all_sessions()
        chosen = [(session, one) for session, one in zip(sessions, wanted) if not (leaves_out and leaves_out(session))]
        self.assertGreater(len(chosen), 0.9 * len(sessions))
        sessions, wanted = zip(*chosen)
        self.check_all(name, sessions, wanted, run_all(sessions, *command, artefact(name), **how))

    def check_ways(self, *command, leaves_out=()):
        """Runs the stored cases that are not run in the plain way: with streams that fail, or that end in a dialogue."""
        path = write(self.path("program"), f'#!/bin/sh\nexec {shlex.join(command)} "$@"\n', mode=0o755)
        for case in cases.stored():
            if case.how and case.how[0] not in ("file-size-limit", *leaves_out):  # that limit is the launcher's to handle
                with self.subTest(case.name):
                    self.assertEqual((case.out, case.err, case.status), performed(case, self.room(), path))

    def test_static(self):
        self.on("x86_64")
        self.check("pp6600-static")
        self.check_ways(artefact("pp6600-static"))

    def test_static_in_an_empty_root(self):
        """With no file beside it but a script."""
        self.on("x86_64")
        if os.geteuid() != 0:
            self.skipTest("only root can change the root")
        root = self.folder
        shutil.copy(artefact("pp6600-static"), os.path.join(root, "pp6600"))
        write(os.path.join(root, "script"), b"STEP\n")
        done = subprocess.run(["/pp6600", "script"],
                              preexec_fn=lambda: (os.chroot(root), os.chdir("/")), capture_output=True, check=False)
        self.assertEqual((b"TURNS 1 SLOT 01\n", b"", 0), (done.stdout, done.stderr, done.returncode))

    def test_static_with_little_memory(self):
        self.on("x86_64")
        limit = (4 << 20, 4 << 20)
        case, set_limit = Stored("", [], b"STEP\n", {}), lambda: resource.setrlimit(resource.RLIMIT_AS, limit)
        found = outcome(case, artefact("pp6600-static"), preexec_fn=set_limit)
        self.assertEqual((b"", b"pp6600: NO MEMORY\n", 2), found)

    def test_aarch64(self):
        runner = self.tool("qemu-aarch64", "qemu-aarch64-static")
        self.check("pp6600-aarch64", runner)
        self.check_ways(runner, artefact("pp6600-aarch64"))

    def test_node_command(self):
        """The program of the package for Node, by the module: all sessions in one process, and one in eight in its own, as those in
        other ways. Node opens a closed stream to nowhere, so that no write to it fails."""
        node, folder = self.tool("node", "nodejs"), self.room()
        for path in (*glob.glob(os.path.join(TOP, "share", "nodejs", "*.mjs")), os.path.join(WEB, "engine", "library.mjs"),
                     artefact("pp6600.wasm"), os.path.join(CLIENTS, "commands.mjs")):
            shutil.copy(path, folder)
        command, (sessions, wanted) = os.path.join(folder, "command.mjs"), all_sessions()
        paths = [write(self.path("sessions", f"{number}", name), data) for number, one in enumerate(sessions)
                 for name, data in {**one.files, "its input": one.script}.items()]
        given = [{"folder": os.path.dirname(path), "script": path, "words": one.words}
                 for path, one in zip((path for path in paths if path.endswith("its input")), sessions)]
        shown = run_tool(node, os.path.join(folder, "commands.mjs"), command, self.file(json.dumps(given)))
        found = [(out.encode("latin-1"), err.encode("latin-1"), status) for out, err, status in json.loads(shown)]
        self.check_all("the package for Node", sessions, wanted, found)
        self.check_all("the package for Node", sessions[::8], wanted[::8], run_all(sessions[::8], node, command))
        self.check_ways(node, command, leaves_out=["closed-output"])
        words = [os.fsencode(word) for word in (node, command, "--deck")] + [b"\xff"]
        self.assertEqual(2, subprocess.run(words, stdin=subprocess.DEVNULL, capture_output=True, check=False).returncode)


# ---- the library

def options_of(session):
    """Returns what the library is given for a session: seven numbers of 32 bits, and the bytes of the deck, the panel and the
    script. Returns None if the words, or a file that they name, are not for it to judge."""
    try:
        given = read_words(session.words)
        options = read_options(given)
    except Rejected:
        return None
    names = [given.get(name) for name in ("--deck", "--panel", "SCRIPT")]
    if any(name is not None and name not in session.files for name in names):
        return None
    deck, panel, script = (session.files[name] if name else default for name, default in zip(names, (b"", b"", session.script)))
    if names[1] and not panel:  # a panel without bytes is none for the library
        return None
    return struct.pack("<7I", *(options[name] for name in ("history", "central", "reader", "printer")), len(deck), len(panel),
                       len(script)) + deck + panel + script


@functools.lru_cache(maxsize=None)
def sessions_of_library():
    """Returns the sessions for the library, what the program comes to in each, and the bytes of each for the clients."""
    chosen = [(session, one, options) for session, one in zip(*all_sessions()) if (options := options_of(session)) is not None]
    return tuple(zip(*chosen))


def answers_in(data):
    """Returns what is in the answers of a client: for each session the output, standard error and the status, as of the program."""
    found, at = [], 0
    while at < len(data):
        status, size, _ = struct.unpack_from("<3I", data, at)
        text = data[at + 12:at + 12 + size]
        at += 12 + size
        found.append((text, b"", status) if status < 2 else (b"", text + b"\n", status))
    return found


def answer_in_python(options, room):
    """Runs one of the sessions in this process, with room for so many bytes of answers at a time. Returns the output, standard
    error and the status, as of the program."""
    *machine, deck, panel, script = struct.unpack_from("<7I", options)
    files = options[28:28 + deck], options[28 + deck:28 + deck + panel]
    try:
        with library.LibrarySession(*machine, *files, path=artefact("libpp6600.so")) as session:
            done = session.answer(options[len(options) - script:], room)
        assert done.taken == script
        return done.text, b"", int(done.refused > 0)
    except library.Refused as refused:
        return b"", f"{refused}\n".encode("ascii"), refused.status


def compiled(compiler, source, *words):
    """Compiles a file in C, without a warning."""
    done = subprocess.run([compiler, "-O1", *WARNINGS, "-I", os.path.dirname(HEADER), source, *words], capture_output=True,
                          text=True, check=False)
    if done.returncode or done.stderr:
        raise AssertionError(f"{compiler} {source}: {done.stderr}")


def answers_of(folder, *command, every=1, **how):
    """Runs a client on the sessions, or on one of so many,, with files in this folder. Returns the bytes of its answers."""
    paths = write(os.path.join(folder, "sessions"), b"".join(sessions_of_library()[2][::every])), os.path.join(folder, "answers")
    done = subprocess.run([*command, *paths], **{"cwd": folder, "capture_output": True, "timeout": PATIENCE, "check": False, **how})
    if (done.returncode, done.stdout, done.stderr) != (0, b"", b""):
        raise AssertionError(f"{command}: {done}")
    return part(folder, "answers")


def client_in_c(folder, compiler, name, library):
    """Returns the path of the client in C, linked with an artefact that has this name in the folder."""
    shutil.copy(artefact(name), os.path.join(folder, library))
    path = os.path.join(folder, "client.exe")  # the name is of no account but for Windows
    compiled(compiler, os.path.join(CLIENTS, "client.c"), os.path.join(folder, library), "-o", path, f"-Wl,-rpath,{folder}")
    return path


@functools.lru_cache(maxsize=None)
def answers_here():
    """Returns the answers of the client in C on this system; none if there is no compiler."""
    if not shutil.which("gcc") or platform.machine() != "x86_64":
        return None
    with tempfile.TemporaryDirectory(prefix="pp6600-test-") as folder:
        return answers_of(folder, client_in_c(folder, "gcc", "libpp6600.so", SONAME))


class Library(Artefacts):
    """The library for other systems and languages: tests/artefacts has a client in C and one in JavaScript, which do the same."""

    def check(self, name, answers, every=1):
        """Checks the answers of a client beside those of the program, and all else that the calls returned beside the client in
        C."""
        sessions, wanted, _ = (some[::every] for some in sessions_of_library())
        self.check_all(name, sessions, wanted, answers_in(answers))
        if every == 1:
            self.assertTrue(answers == (answers_here() or answers), f"{name}: a call returns another number, beside the answers")

    def test_python(self):
        sessions, wanted, options = sessions_of_library()
        self.check_all("libpp6600.so by ctypes", sessions, wanted,
                       tuple(map(answer_in_python, options, itertools.cycle((64, 4096, 1 << 20)))))

    def test_c(self):
        self.on("x86_64")
        self.tool("gcc")
        self.check("libpp6600.so", answers_here())
        self.check("libpp6600.a", answers_of(self.folder, client_in_c(self.folder, "gcc", "libpp6600.a", "libpp6600.a")))

    def test_aarch64(self):
        compiler, runner = self.tool("aarch64-linux-gnu-gcc"), self.tool("qemu-aarch64", "qemu-aarch64-static")
        # one object, linked in two ways
        for name, linked, every in (("libpp6600-aarch64.so", SONAME, 1), ("libpp6600-aarch64.a", "libpp6600.a", 8)):
            client = client_in_c(self.folder, compiler, name, linked)
            self.check(name, answers_of(self.folder, runner, "-L", "/usr/aarch64-linux-gnu", client, every=every), every)

    def test_node(self):
        self.check("pp6600.wasm", answers_of(self.folder, self.tool("node", "nodejs"), *self.for_node("client.js")))

    def test_node_memory(self):
        """The module refuses a size that it has no memory for, and its sessions don't touch each other."""
        shown = run_tool(self.tool("node", "nodejs"), *self.for_node("memory.js"))
        self.assertEqual(["true true", "TURNS 1 SLOT 01 true", "true true true", "true", "true true true", "TURNS 1 SLOT 01",
                          "pp6600.wasm: a line is too long TURNS 1 SLOT 01 1",
                          'pp6600.wasm: no memory {"text":"OK\\nTURNS 1 SLOT 01\\n","lines":2,"refused":0} 2 TURNS 1 SLOT 02'],
                         shown.splitlines())

    def test_node_numbers(self):
        shown = run_tool(self.tool("node", "nodejs"), *self.for_node("numbers.js"),
                         json.dumps({call: [*bits.values()] for call, bits in NUMBERS.items()}))
        self.assertRegex(shown, r"^true \d+\n$")

    def test_node_wrong_arguments(self):
        """Each of 2,000 calls with a wrong argument names it, and changes nothing."""
        self.for_node("wrong_calls.js")
        package = shutil.copy(os.path.join(TOP, "share", "nodejs", "pp6600.mjs"), self.folder)
        shown = run_tool(self.tool("node", "nodejs"), self.path("wrong_calls.js"), package, "2000")
        self.assertEqual("true 2000\n", shown)

    def test_node_is_told_what_is_wrong(self):
        """A session of the module rejects a deck, a count and a place; it answers more lines than one call takes, and none after
        its end."""
        shown = run_tool(self.tool("node", "nodejs"), *self.for_node("wrong.js"))
        self.assertEqual(["pp6600: DECK LINE 1 NOT OCTAL", "pp6600.wasm: count: -1 is no number of 32 bits", "false false 6",
                          "pp6600.wasm: rejected", "1000001", "pp6600.wasm: the session is closed"], shown.splitlines())

    def test_chromium(self):
        path = browser.found() or self.skipTest("a browser is missing")
        page = browser.Browser(path)
        self.addCleanup(page.end)
        for script in (os.path.join(WEB, "engine", "library.mjs"), os.path.join(CLIENTS, "client.js")):
            page.evaluate(re.sub(r"^export ", "", read(script), flags=re.M) + "\n;0")
        given = (base64.b64encode(data).decode() for data in (part(FOLDER, "pp6600.wasm"), b"".join(sessions_of_library()[2])))
        answers = page.evaluate(f"answersInPage(...{json.dumps(list(given))})")
        self.assertEqual([], page.log)
        self.check("pp6600.wasm", base64.b64decode(answers))


class Files(Artefacts):
    """What is in the artefacts."""

    def test_exports(self):
        """A library has the calls of the header and no other symbol for others, and asks for none and for no other library."""
        calls = sorted(re.findall(r"^uint32_t (pp6600_\w+)\(", read(HEADER), flags=re.M))
        self.assertIn("pp6600_answer", calls)
        reader = self.tool("readelf")
        for name in ("libpp6600.a", "libpp6600-aarch64.a"):
            symbols = re.findall(r"(?:GLOBAL|WEAK) +\w+ +(\w+) (\S+)$", run_tool(reader, "--syms", "--wide", artefact(name)),
                                 flags=re.M)
            self.assertEqual(calls, sorted(name for _, name in symbols))
            self.assertNotIn("UND", dict(symbols))
        self.assertEqual(calls,
                         sorted(re.findall(r"\0(pp6600_\w+)\0pp6600\.dll\0", part(FOLDER, "libpp6600.dll.a").decode("latin-1"))))
        for name in ("libpp6600.so", "libpp6600-aarch64.so"):
            symbols = run_tool(reader, "--dyn-syms", "--wide", artefact(name))
            self.assertEqual(calls, sorted(line.split()[-1] for line in symbols.splitlines()[4:]))
            dynamic = run_tool(reader, "--dynamic", artefact(name))
            self.assertNotIn("NEEDED", dynamic)
            self.assertIn(f"soname: [{SONAME}]", dynamic)

    def test_the_module_imports_nothing(self):
        node = self.tool("node", "nodejs")
        shown = run_tool(node, "-e",
                         "console.log(WebAssembly.Module.imports(new "
                         "WebAssembly.Module(require('fs').readFileSync(process.argv[1]))))",
                         self.for_node("client.js")[-1])
        self.assertEqual("[]\n", shown)

    def test_windows_asks_for_two_libraries(self):
        reader = self.tool("x86_64-w64-mingw32-objdump", "objdump")
        for name, wanted in (("pp6600.exe", ["KERNEL32.dll", "SHELL32.dll"]), ("pp6600.dll", ["KERNEL32.dll"])):
            self.assertEqual(wanted, sorted(re.findall(r"DLL Name: (\S+)", run_tool(reader, "-p", artefact(name)))))

    def test_sources_names_each(self):
        """dist/sources has a line with the checksum of each artefact."""
        named = dict(line.split(" ", 1) for line in read(FOLDER, "sources").splitlines())
        for name in run_tool(sys.executable, os.path.join(TARGETS, "build"), "--list").split():
            with self.subTest(name):
                self.assertEqual(named.get(name), hashlib.sha256(part(FOLDER, name)).hexdigest())


COMMENTS = {".c": r"/\*.*?\*/", ".h": r"/\*.*?\*/", ".ll": r";[^\n]*", ".py": r'""".*?"""|#[^\n]*'}


def lines_of(name):
    """Returns how many lines a file of targets/ has, without empty ones and comments."""
    text = re.sub(COMMENTS[os.path.splitext(name)[1]], "", read("targets", name), flags=re.S)
    return sum(bool(line.strip()) for line in text.splitlines())


class Shims(Artefacts):
    """What the compiled code calls of its system is compiled without a warning by other compilers than the kit's: a first one lost
    the sign of a failed write, of which only gcc said a word."""

    def check(self, compiler, *names):
        compiler = self.tool(compiler)
        for name in names:
            compiled(compiler, os.path.join(TARGETS, "shim", f"{name}.c"), "-ffreestanding", "-fno-builtin", "-c", "-o", os.devnull)

    def test_linux(self):
        self.check("gcc", "linux_program", "linux_memory", "bytes")

    def test_aarch64(self):
        self.check("aarch64-linux-gnu-gcc", "linux_program", "linux_memory", "bytes")

    def test_windows(self):
        self.check("x86_64-w64-mingw32-gcc", "windows_program", "windows_memory", "windows_library", "bytes")

    def test_memory_of_threads(self):
        """Four threads ask for blocks and give them back, and each block keeps its bytes."""
        self.assertEqual("0\n", self.blocks_of(4, os.path.join(TARGETS, "shim", "linux_memory.c")))

    def test_memory_of_module(self):
        """In a module too; given back, all of it is one block."""
        self.on("x86_64")
        heap = ["-no-pie", "-Wl,--defsym=__heap_base=0x10000000", "-Wno-attributes"]
        self.assertEqual("0\n1\n", self.blocks_of(1, os.path.join(CLIENTS, "module_memory.c"), *heap))

    def blocks_of(self, threads, *words):
        """Returns what blocks in so many threads come to, of the memory of a shim."""
        made = self.path("memory")
        compiled(self.tool("gcc"), os.path.join(CLIENTS, "memory.c"), f"-DTHREADS={threads}", "-I", os.path.join(TARGETS, "shim"),
                 *words, "-pthread", "-o", made)
        return run_tool(made)

    def test_lines(self):
        """targets/README.md counts each file that is trusted."""
        table = re.findall(r"^\| `([\w./]+)` \| (\d+) \|", read("targets", "README.md"), flags=re.M)
        self.assertEqual(table, [(name, str(lines_of(name))) for name, _ in table])
        named = {name for name, _ in table}
        files = {f"shim/{name}" for name in os.listdir(os.path.join(TARGETS, "shim")) if not name.endswith(".def")}
        self.assertEqual(files | {"retarget.py"}, named)


def run_tool(*command):
    """Returns what a tool writes."""
    return subprocess.run(command, capture_output=True, encoding="utf-8", errors="replace", timeout=PATIENCE, check=True).stdout
