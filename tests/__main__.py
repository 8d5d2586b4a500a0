"""Runs the modules of tests/ side by side, and adds up what passed.

    python3 -m tests [NAME ..]

A NAME is that of a module without test_, as panel; without names all run. When a module has ended, what failed is shown, why tests
were skipped, and how many seconds it took: of a clock, and of processor time, with the programs that it waited for. Many tests wait
for programs, so more modules run than there are cores for this process. An interrupt ends all, with the count so far.
One module, class or test alone: python3 -m unittest tests.test_panel -k sizes
"""

import sys

if not getattr(sys.flags, "safe_path", False):
    del sys.path[0]  # no file of the folder one works in is taken for a module of Python's own

import atexit  # noqa: E402
import collections  # noqa: E402
import concurrent.futures  # noqa: E402
import functools  # noqa: E402
import glob  # noqa: E402
import os  # noqa: E402
import re  # noqa: E402
import shutil  # noqa: E402
import signal  # noqa: E402
import subprocess  # noqa: E402
import tempfile  # noqa: E402
import threading  # noqa: E402
import time  # noqa: E402
import unittest  # noqa: E402

HERE = os.path.dirname(os.path.abspath(__file__))
TOP = os.path.dirname(HERE)
with open(os.path.join(TOP, "tools", "pp6600", "own.py"), encoding="ascii") as own:
    exec(own.read())
find_first(tests=TOP)
ALONE = "--alone"  # before the name of a module, which is then run in this process
PASSED = re.compile(r"^(?:.*\.\.\. )?ok\n", re.M)
SKIPPED = re.compile(r"\.\.\. skipped (['\"])(.*)\1$", re.M)
TOOK = re.compile(r"^processor time: ([0-9.]+)\n\Z", re.M)  # the last line of a module
FAILED = re.compile(r"\.\.\. (?:FAIL|ERROR)$", re.M)
NOT_PASSED = re.compile(r"(?:failures|errors|unexpected successes)=(\d+)")  # in the last line
LONGEST = 1800  # seconds of processor time that a module may take, and of time in which it takes none
LOOK = 10  # seconds between looks at that time
FIRST = [f"test_{name}"
         # they take longest
         for name in "windows film_page film_session film_walk sessions install packages evaluate library random".split()]


def modules(names):
    """Returns the modules with these names, or all, first those that take longest, then the largest."""
    paths = sorted(glob.glob(os.path.join(HERE, "test_*.py")), key=os.path.getsize, reverse=True)
    found = sorted((os.path.basename(path)[:-len(".py")] for path in paths), key=lambda name: name not in FIRST)
    unknown = [name for name in names if f"test_{name}" not in found]
    if unknown:
        sys.exit(f"tests: there is no module tests/test_{unknown[0]}.py")
    return [name for name in found if not names or name[len("test_"):] in names]


class Module:
    """A module of tests that runs as a process of its own."""

    def __init__(self, name):
        self.name, self.began = name, time.monotonic()
        self.written = tempfile.TemporaryFile("w+", encoding="utf-8", errors="replace")
        words = [sys.executable, os.path.join(HERE, "__main__.py"), ALONE, name]
        self.process = subprocess.Popen(words, cwd=TOP, stdin=subprocess.DEVNULL, stdout=self.written,
                                        stderr=self.written, start_new_session=True, env={**os.environ, "HOME": home()})

    def kill(self, by=signal.SIGKILL):
        """Ends it and what it has started."""
        try:
            os.killpg(self.process.pid, by)
        except ProcessLookupError:
            pass

    def output(self):
        """Returns what it has written so far."""
        self.written.seek(0)
        return TOOK.sub("", self.written.read())

    def took(self):
        """Returns the seconds of processor time that it took, by its last line."""
        self.written.seek(0)
        found = TOOK.search(self.written.read())
        return float(found[1]) if found else 0.0

    def finished(self):
        """Waits for its end. Returns what it wrote, and whether it ended well; one that never ends is ended, so that the others
        count."""
        worked, at = 0.0, time.monotonic()  # the processor time at the last look at which there was more of it
        while True:
            try:
                self.process.wait(LOOK)
                break
            except subprocess.TimeoutExpired:
                now = processor_time(self.process.pid)
                if now > worked + 1:
                    worked, at = now, time.monotonic()
                if worked > LONGEST or time.monotonic() > at + LONGEST:
                    self.kill()
        status = self.process.returncode
        late = "" if status >= 0 else f"\nended by signal {-status}; a module may take {LONGEST} s of processor time\n"
        return self.output() + late, status == 0


def processor_time(session):
    """Returns the seconds of processor time that the processes of a session have taken, as far as the system says it."""
    ticks = 0
    for path in glob.glob("/proc/[0-9]*/stat"):
        try:
            with open(path, encoding="ascii", errors="replace") as file:
                fields = file.read().rpartition(")")[2].split()
        except OSError:  # it has ended
            continue
        ticks += sum(map(int, fields[11:15])) if int(fields[3]) == session else 0
    return ticks / os.sysconf("SC_CLK_TCK")


@functools.lru_cache(maxsize=None)
def home():
    """Returns the user's own folder, or another one if it can't be written."""
    own = os.environ.get("HOME", "")
    return own if os.path.isdir(own) and os.access(own, os.W_OK) else new_room()


def new_room():
    """Returns a new folder, which is removed at the end."""
    room = tempfile.mkdtemp(prefix="pp6600-test-")
    atexit.register(shutil.rmtree, room, ignore_errors=True)
    return room


def is_usable():
    """Returns whether tests can be run in this checkout: whether it can be written, and its name is text, which other programs
    want."""
    try:
        TOP.encode("utf-8")
    except UnicodeEncodeError:
        return False
    return os.access(TOP, os.W_OK)


def run_in_copy():
    """Runs the tests in a copy of this checkout, which can be written. Returns the exit status."""
    copy = os.path.join(new_room(), "a copy of the checkout")
    print("tests: this checkout can't be written, or its name is not UTF-8, so a copy of it is tested", flush=True)
    shutil.copytree(TOP, copy, symlinks=True, ignore=shutil.ignore_patterns("out", "__pycache__"))
    for folder, _, names in os.walk(copy):
        for path in (folder, *(os.path.join(folder, name) for name in names)):
            if not os.path.islink(path):
                os.chmod(path, os.stat(path).st_mode | 0o600)
    return subprocess.run([sys.executable, os.path.join(copy, "tests", "__main__.py"), *sys.argv[1:]], check=False).returncode


def counted(output, ended_well=True):
    """Returns how many tests passed, failed and were skipped, by what a module has written to its end, or so far."""
    said = sum(map(int, NOT_PASSED.findall(output.rsplit("\n\n", 1)[-1])))
    failed = max(said, len(FAILED.findall(output)), int(not ended_well))
    return collections.Counter(passed=len(PASSED.findall(output)), failed=failed, skipped=len(SKIPPED.findall(output)))


def text_of(counts):
    return f"{counts['passed']} passed, {counts['failed']} failed"


class Run:
    """The modules that run, and the counts of those that have ended."""

    def __init__(self):
        self.counts, self.running, self.lock, self.is_ending = collections.Counter(), {}, threading.Lock(), False
        self.took = 0.0

    def module(self, name):
        """Runs a module, and shows how it ended."""
        with self.lock:
            if self.is_ending:
                return
            module = self.running[name] = Module(name)
        output, ended_well = module.finished()
        with self.lock:
            if self.is_ending:
                return
            del self.running[name]
            counts = counted(output, ended_well)
            self.counts += counts
            self.show(module, output, counts)

    def show(self, module, output, counts):
        """Shows what failed in a module and why tests were skipped, its counts, and how many modules run still."""
        reasons = collections.Counter(reason for _, reason in SKIPPED.findall(output))
        skips = "".join(f"skipped {count}: {reason}\n" for reason, count in reasons.items())
        shown = PASSED.sub("", output) if counts["failed"] else skips
        seconds, worked = time.monotonic() - module.began, module.took()
        self.took += worked
        print(f"{shown}{module.name}: {text_of(counts)}, {counts['skipped']} skipped in {seconds:.0f} s, {worked:.1f} s of "
              f"processor time", flush=True)

    def end(self):
        """Ends all modules, and adds what they have tested so far."""
        with self.lock:
            self.is_ending = True
            for module in self.running.values():
                self.counts += counted(module.output())
                module.kill(signal.SIGINT)
            time.sleep(0.5)  # to remove their folders
            for module in self.running.values():
                module.kill()


def main():
    if sys.argv[1:2] == [ALONE]:
        atexit.register(lambda: print(f"processor time: {sum(os.times()[:4]):.1f}", flush=True))
        unittest.main(module=None, argv=["unittest", "-v", *(f"tests.{name}" for name in sys.argv[2:])])
    names = modules(sys.argv[1:])
    if not is_usable():
        return run_in_copy()
    workers = 2 * len(os.sched_getaffinity(0)) + 1
    run = Run()
    print(f"tests: {len(names)} modules, {min(workers, len(names))} at a time; each is shown when it has ended. Ctrl-C ends them.",
          flush=True)
    pool = concurrent.futures.ThreadPoolExecutor(workers)
    try:
        for future in [pool.submit(run.module, name) for name in names]:
            future.result()
    except KeyboardInterrupt:
        run.end()
        print(f"\ntests: interrupted\n{text_of(run.counts)} so far", flush=True)
        os._exit(130)
    print(f"{run.counts['skipped']} skipped; {run.took / 60:.1f} minutes of processor time")
    print(text_of(run.counts))
    return 1 if run.counts["failed"] or not run.counts["passed"] else 0


sys.exit(main())
