"""Transcripts: commands of a shell and what they write, standard error too, in one folder.

A line that begins with $ is a command, and the lines from <<END to END are its own; the others are what it writes. A line that
begins with # is a note; `# needs NAME ..` names commands, and modules of Python as module:NAME and a machine as machine:NAME,
without which what follows is skipped. `at-terminal COMMAND` runs a command at a terminal. The name of the folder is left out of
what is written, as is that of the repository.
"""

import functools
import glob
import importlib.util
import os
import platform
import re
import shlex
import shutil
import subprocess

from tests.cases import part
from tests.steps import StepCase
from tests.support import PATIENCE, TOP, program, quick_path, read, tool_here, write

AT_TERMINAL = """#!/bin/sh
exec python3 -c 'import pty, sys; sys.exit(pty.spawn(sys.argv[1:]) >> 8)' "$@" </dev/null | tr -d '\\r'
"""
COMMAND = re.compile(r"^\$ (.*<<END.*\n(?:.*\n)*?END|.*)\n", re.M)  # with its own lines
MARK = "====\n"
OUTPUT = "bin/output"  # of a tool, for what reads it
# A tool with words that need no shell, on what some commands write, a file, the lines that follow or nothing; where its output
# goes, or what reads it, and with it what it says; and whether its status is shown. Such a tool runs in the tests' own process.
ALONE = re.compile(r"""(?:(printf\ '[^']*'(?:\ "[^"$`]*")*|echo\ [^|&;<>`$]*|\([^|&<>()]*\)|sed(?:\ '[^']*'|\ [\w-]+)+)\ \|\ )?
                       tools/(?!panel|debug|talk\ .*--save)([\w-]+)((?:\ (?:[\w./:=,+@%\#-]+|'[^']*'))*)
                       (?:\ <([\w./-]+)|\ <<END\n((?:.*\n)*)END)?
                       (?:(\ 2>&1)?\ >(/dev/null|[\w.-]+)|(\ 2>&1)?\ \|\ ((?!.*tools/|.*PIPESTATUS).*))?(;\ echo\ \$\?)?""", re.X)
# Where a line is cut into commands: not in a text, in parentheses, or before a status.
PARTS = re.compile(r"""((?:'[^']*'|"[^"]*"|\([^()'"]*\)|[^'"();]|;(?! )|; (?=echo \$\?))+)(?:; )?""")
WHOLE = re.compile(r"\n|<<|&&|[\w ]\(\)|PIPESTATUS|\b(?:if|while|case|for|wait|trap)\b")  # what is not cut
LOOP = re.compile(r"for (\w+) in ([\w.+ -]+); do (.*); done")
DEFINED = re.compile(r"([a-z]+)\(\) \{ (.*); \}")  # a function of the shell
GIVEN = re.compile(r"\$(\d)|\$\{(\d):-(\w+)\}")  # what it is given, or what it takes in its place
OUTSIDE = re.compile(r"/dev/(?!null)")  # files without end
LEAVES = re.compile(r"(?<!\()\b(?:cd|export) ")  # changes what a tool of this process would not see


def parts_of(command):
    """Returns the commands of a line, a loop over words as one for each; the line itself if it can't be cut."""
    if loop := LOOP.fullmatch(command):
        return [one for word in loop[2].split() for one in parts_of(loop[3].replace(f"${loop[1]}", word))]
    found = list(PARTS.finditer(command))
    is_cut = found and found[-1].end() == len(command) and not WHOLE.search(command)
    return [one[1] for one in found] if is_cut and "".join(one[0] for one in found) == command else [command]


class Shell:
    """A bash in a folder."""

    def __init__(self, folder, path):
        self.folder, self.functions, self.is_here = folder, {}, True
        self.process = subprocess.Popen(["bash"], cwd=folder, stdin=subprocess.PIPE, stdout=subprocess.PIPE,
                                        stderr=subprocess.STDOUT,
                                        env={**os.environ, "PP6600": program(), "PATH": f"{folder}/bin:{path}"})

    def perform(self, command):
        """Performs a command. Returns what it writes, standard error too."""
        self.functions.update(DEFINED.findall(command))
        self.is_here &= not LEAVES.search(command)
        called = self.as_called(command)
        parts = [called] if ALONE.fullmatch(called) else parts_of(called)
        if not self.is_here or OUTSIDE.search(command) or not any(map(ALONE.fullmatch, parts)):
            return self.written(command).decode("utf-8", "replace")
        return "".join(self.performed_here(*found.groups()) if (found := ALONE.fullmatch(one))
                       else self.written(one).decode("utf-8", "replace") for one in parts)

    def as_called(self, command):
        """Returns the command of a function that is called with these words, or else the command."""
        name, _, words = command.partition(" ")
        if name not in self.functions or "\n" in command:
            return command
        given = ["", *shlex.split(words), *[""] * 9]
        return GIVEN.sub(lambda mark: given[int(mark[1] or mark[2])] or mark[3] or "", self.functions[name])

    def performed_here(self, source, name, words, path, typed, _, into, all_is_read, reader, shows_status):
        """Returns what a tool writes that runs in this process."""
        script = typed.encode() if typed else part(self.folder, path) if path else self.written(source) if source else b""
        done = tool_here(name, *shlex.split(words), script=script.decode("latin-1"), folder=self.folder,
                         is_one=bool(all_is_read) or not (into or reader))
        shown = done.out
        if into or reader:
            if into != os.devnull:
                write(os.path.join(self.folder, into or OUTPUT), done.out)
            shown = done.err * (not all_is_read) + (self.written(f"{{ {reader}\n}} <{OUTPUT}").decode() if reader else "")
        return shown + (f"{done.status}\n" if shows_status else "")

    def written(self, command):
        """Returns what a command of the shell writes, standard error too."""
        self.process.stdin.write(f"{{\n{command}\n}} </dev/null\n{{ status=$?; echo; echo '{MARK}'; (exit $status); }}\n".encode())
        self.process.stdin.flush()
        written = b""
        while not written.endswith(f"\n{MARK}\n".encode()):
            line = self.process.stdout.readline()
            if not line:
                raise EOFError(written.decode())
            written += line
        return written[:-len(MARK) - 2]

    def end(self):
        self.process.communicate(timeout=PATIENCE)


def commands_in(text):
    """Returns the commands of a text, each with what it writes."""
    begin, *commands = COMMAND.split(text)
    assert not begin, begin
    return list(zip(commands[::2], commands[1::2]))


def is_here(name):
    """Returns whether a command is here, or a module of Python, or whether this is such a machine."""
    kind, _, rest = name.rpartition(":")
    if kind == "module":
        return importlib.util.find_spec(rest) is not None
    return platform.machine() == rest if kind == "machine" else shutil.which(name) is not None


class TranscriptCase(StepCase):
    """Tests of transcripts."""

    def steps(self, path):
        """Yields commands, each with what it writes, up to those for which something is missing."""
        before, *parts = re.split("^# needs (.*)$", read(path), flags=re.M)
        for names, text in zip(["", *parts[::2]], [before, *parts[1::2]]):
            missing = [name for name in names.split() if not is_here(name)]
            if missing:
                self.skipTest(f"{', '.join(missing)} is not here")
            yield from commands_in(re.sub("^#.*\n|^\n", "", text, flags=re.M))

    @functools.cached_property
    def shell(self):
        """A shell in the folder of the test, where the repository's parts are."""
        self.place({}, "examples", "exercises", "tests", "tools")
        os.symlink(program(), self.path("pp6600"))
        write(self.path("bin", "at-terminal"), AT_TERMINAL, 0o755)
        shell = Shell(self.folder, quick_path())
        self.addCleanup(shell.end)
        return shell

    def performed(self, command):
        """Returns what a command writes, without empty lines and names of folders."""
        text = re.sub("^\n", "", self.shell.perform(command), flags=re.M)
        return text.replace(f"{self.folder}/", "").replace(f"{TOP}/", "")


def transcripts(folder):
    """Returns the names of the transcripts of a folder of tests/, and their paths."""
    return [(os.path.basename(path)[:-len(".txt")], path)
            for path in sorted(glob.glob(os.path.join(TOP, "tests", folder, "*.txt")))]
