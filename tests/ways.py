"""The ways to run a stored case of the program."""

import os
import resource
import subprocess
import sys
import tempfile

from tests.cases import part
from tests.steps import StepCase
from tests.support import PATIENCE, TOP, program, write, writer


def outcome(case, *command, **how):
    """Runs a case by a command in a folder of its own. Returns what is written to standard output and to standard error, and the
    status."""
    with tempfile.TemporaryDirectory(prefix="pp6600-test-") as folder:
        return Ways(case, folder, *command).plain(**how)


def performed(case, folder, *command):
    """Runs a case in a folder in its own way, by a command, else by the program. Returns the same."""
    way, *words = case.how or ["plain"]
    return getattr(Ways(case, folder, *command or [program()]), way.replace("-", "_"))(*words)


class Ways:
    """The ways to run a case. Each returns what the program wrote to standard output and error, and its status."""

    def __init__(self, case, folder, *command):
        self.case, self.folder = case, folder
        self.script, self.words = case.script, [*command, *case.words]
        for name, data in case.files.items():
            write(os.path.join(folder, name), data)

    def plain(self, **how):
        how = {"stdout": subprocess.PIPE, "stderr": subprocess.PIPE, **how}
        done = subprocess.run(self.words, input=self.script, cwd=self.folder, timeout=PATIENCE, check=False, **how)
        return done.stdout or b"", done.stderr, done.returncode

    def by(self, script):
        """By a Python script of the case, which runs the program; it may import the tools' package."""
        self.words = [sys.executable, script, *self.words]
        return self.plain(env={**os.environ, "PYTHONPATH": os.path.join(TOP, "tools"), "PYTHONDONTWRITEBYTECODE": "1"})

    def line_feeds(self, name, count):
        """With so many line feeds as a file or as standard input."""
        if name == "stdin":
            self.script = b"\n" * int(count)
        else:
            write(os.path.join(self.folder, name), b"\n" * int(count))
        return self.plain()

    def closed_output(self):
        self.words = ["sh", "-c", 'exec "$@" >&-', "sh", *self.words]
        return self.plain()

    def full_output(self):
        with open("/dev/full", "wb") as full:
            return self.plain(stdout=full)

    def broken_output(self):
        """With a pipe that nobody reads as standard output."""
        reader, writer = os.pipe()
        os.close(reader)
        with open(writer, "wb") as broken:
            return self.plain(stdout=broken)

    def file_size_limit(self, size):
        """Under its launcher, with a file of at most so many bytes as standard output."""
        if self.words[0] == program():
            self.words[0] = os.path.join(TOP, "pp6600")
        path = os.path.join(self.folder, "output")
        with open(path, "wb") as file:
            limit = (int(size), int(size))
            _, err, status = self.plain(stdout=file, preexec_fn=lambda: resource.setrlimit(resource.RLIMIT_FSIZE, limit),
                                        env={**os.environ, "PYTHONDONTWRITEBYTECODE": "1"})  # else modules are stored in part
        return part(self.folder, "output"), err, status

    def byte_by_byte(self):
        """With its input written byte by byte."""
        with self.started() as process:
            for byte in self.script:
                process.stdin.write(bytes([byte]))
            out, err = process.communicate(timeout=PATIENCE)
        return out, err, process.returncode

    def line_by_line(self, name=""):
        """With a program at the other end, of standard input or of a named pipe, that reads the answer to each line before it
        writes the next."""
        seen = b""
        if name:
            os.mkfifo(os.path.join(self.folder, name))
        with self.started() as process:
            typed = open(writer(os.path.join(self.folder, name)), "wb", buffering=0) if name else process.stdin
            for line, answer in zip(self.script.splitlines(keepends=True), self.case.out.splitlines(keepends=True)):
                typed.write(line)
                seen += (read_now := process.stdout.readline())
                if read_now != answer:
                    break
            if name:
                typed.close()
            out, err = process.communicate(timeout=PATIENCE)
        return seen + out, err, process.returncode

    def started(self):
        pipe = subprocess.PIPE
        return subprocess.Popen(self.words, cwd=self.folder, stdin=pipe, stdout=pipe, stderr=pipe, bufsize=0)


class CaseTests(StepCase):
    """Tests of stored cases, each of one step."""

    def begin(self, case):
        self.case = case

    def steps(self, case):
        return [(case.name, (case.out, case.err, case.status))]

    def performed(self, _):
        return performed(self.case, self.folder)
