"""Tests how much stack the program needs: by the call graphs of the artefacts, and by running it with little.

The language proves that each call returns, on a machine with enough stack. How much is enough, the compiled code says: the sum of
the frames on the deepest way of calls. None of our own functions calls itself, by whatever way, or calls through a pointer. Of the
kit some do: clap for each level of commands, of which there is one; a B-tree for each of its levels when it is dropped, or a name
is taken out of it; and a sort for each halving."""

import collections
import functools
import itertools
import os
import re
import resource
import shutil
import subprocess
import sys

from tests import cases, slips
from tests.built import artefact, rows
from tests.support import Case, program, run
from tests.ways import outcome

MOST = 48 * 1024  # bytes of stack from `run`
OF_CALLS = {"until": 144 * 1024, "assemble": 48 * 1024, "load_lines": 48 * 1024}  # from a call of the library; 16 KB from another
LITTLE = 64 * 1024  # bytes, with which the system runs the program; it needs some for itself
OURS = re.compile(r"^pp_[a-z]+::(?!clap)|pp6600")
RECURSIVE = re.compile(r"clap(::|\+\+)|^std_collections::btree::node::Node::(destroy|take_at|pop_last)\b|^core::slice::sort::")
RANDOM = int(os.environ.get("PP6600_STACK_SESSIONS", "200"))

FUNCTION, CODE = re.compile(r"^[0-9a-f]+ <(.+)>:$"), re.compile(r"^\s*[0-9a-f]+:\s+(\S+)\s*(.*)$")
TARGET = re.compile(r"<(.+?)(\+0x[0-9a-f]+)?>$")


class Graph:
    """The functions of a compiled program: their frames in bytes, whom they call, and which call through a pointer."""

    def __init__(self, text):
        self.frames, self.calls, self.indirect, name = collections.Counter(), collections.defaultdict(set), set(), ""
        for line in text.splitlines():
            line = line.split("  #")[0].rstrip()
            if found := FUNCTION.match(line):
                name = found[1]
                self.frames[name] += 0
            elif name and (found := CODE.match(line)):
                self.frames[name] += self.frame(*found.groups())
                self.follow(name, *found.groups())

    @staticmethod
    def frame(word, given):
        """Returns the bytes of stack that an instruction takes."""
        if word in ("push", "pushq"):
            return 8
        # A large frame is taken page by page: its end stands in r11 or x9 first.
        taken = re.match(r"\$(0x[0-9a-f]+|\d+), ?%r(?:sp|11)$", given) if word in ("sub", "subq") and "%" in given else \
            re.match(r"(?:sp|x9), sp, #(0x[0-9a-f]+|\d+)(, lsl #12)?", given) if word == "sub" else None
        taken = taken or (re.search(r"\[sp, #-(0x[0-9a-f]+|\d+)\]!", given) if word in ("stp", "str") else None)
        if not taken:
            return 0
        return int(taken[1], 0) << (12 if taken.lastindex == 2 and taken[2] else 0)

    def follow(self, name, word, given):
        """Notes whom an instruction calls, or jumps to in place of a call."""
        found = TARGET.search(given)
        is_call = word in ("call", "callq", "bl")
        if is_call and found and not given.startswith("*"):
            self.calls[name].add(found[1])
        elif word in ("jmp", "jmpq", "b") and found and not found[2] and found[1] != name:
            self.calls[name].add(found[1])
        elif word == "blr" or is_call:
            self.indirect.add(name)

    def circles(self):
        """Returns the functions from which a way of calls leads back to themselves."""
        found = set()
        for name in self.frames:
            ahead, met = list(self.calls[name]), set()
            while ahead:
                one = ahead.pop()
                if one not in met:
                    met.add(one)
                    ahead += self.calls[one]
            found.update({name} & met)
        return found

    def depths(self, circles):
        """Returns the bytes of stack that each function needs with all that it calls. A call within a circle counts once."""
        @functools.lru_cache(None)
        def depth(name, within):
            below = (one for one in self.calls[name] if one in self.frames and one not in within)
            return self.frames[name] + 16 + max((depth(one, within | {name} & circles) for one in below), default=0)
        return {name: depth(name, frozenset()) for name in self.frames}


class Artefacts(Case):
    """The call graphs of the artefacts."""

    def graph(self, name):
        tool = shutil.which("llvm-objdump") or (None if "aarch64" in name else shutil.which("objdump"))
        if not tool:
            self.skipTest("there is no llvm-objdump")
        found = subprocess.run([tool, "-d", "--no-show-raw-insn", artefact(name)], capture_output=True, text=True, check=True)
        return Graph(found.stdout)

    def check(self, name, most=MOST):
        """Checks the functions of an artefact. Returns how many bytes of stack each needs."""
        graph = self.graph(name)
        own = {one for one in graph.frames if OURS.search(one)}
        self.assertLess(20, len(own), "the artefact has no names")
        circles = graph.circles()
        self.assertEqual([], sorted(one for one in circles if not RECURSIVE.search(one)))
        self.assertEqual([], sorted(own & graph.indirect))
        depths = graph.depths(frozenset(circles))
        deepest = max(own, key=lambda one: depths[one])
        self.assertLess(depths[deepest], most, deepest)
        self.assertLess(4096, depths[deepest], deepest)  # else the frames were not read
        return depths

    def test_programs(self):
        for name in ("pp6600-static", "pp6600", "pp6600-aarch64"):
            with self.subTest(name):
                self.check(name)

    def test_libraries(self):
        """A call needs no more than docs/LIBRARY.md says."""
        for name in ("libpp6600.so", "libpp6600-aarch64.so"):
            with self.subTest(name):
                depths = self.check(name, OF_CALLS["until"])
                for call in (one for one in depths if one.startswith("pp6600_")):
                    most = next((size for part, size in OF_CALLS.items() if part in call), 16 * 1024)
                    self.assertLess(depths[call], most, call)

    def test_a_circle_is_found(self):
        """A function of ours that calls itself, by another one, is found, and so is a call through a pointer."""
        graph = Graph("0 <pp_a::f>:\n 1: subq $0x20, %rsp\n 2: callq 0 <pp_a::g>\n3 <pp_a::g>:\n 4: jmp 0 <pp_a::f>\n 5: call "
                      "*%rax\n"
                      "6 <pp_a::h>:\n 7: stp x29, x30, [sp, #-32]!\n 8: sub sp, sp, #1, lsl #12\n 9: bl 0 <pp_a::f>\n")
        self.assertEqual(({"pp_a::f", "pp_a::g"}, {"pp_a::g"}), (graph.circles(), graph.indirect))
        self.assertEqual({"pp_a::f": 64, "pp_a::g": 64, "pp_a::h": 4208}, graph.depths(frozenset(graph.circles())))


def with_little():
    """Gives the program little stack."""
    resource.setrlimit(resource.RLIMIT_STACK, (LITTLE, LITTLE))


class Runs(Case):
    """Sessions with little stack have the outcome that they have with more."""

    def test_rows_and_random_sessions(self):
        if os.name != "posix" or not sys.platform.startswith("linux"):
            self.skipTest("the limit is that of Linux")
        sessions = [*rows(), *(case for _, case in cases.named() if not case.how),
                    *itertools.islice(slips.random_cases(4000), RANDOM)]
        little = ["sh", "-c", f'ulimit -s {LITTLE // 1024}; exec "$@"', "sh", program()]
        for one in sessions:
            with self.subTest(one.name):
                self.assertEqual(outcome(one, program()), outcome(one, *little))

    def test_too_little(self):
        """With a quarter of it the system does not start the program, or ends it."""
        self.assertNotEqual(0, run("sh", "-c", 'ulimit -s 16; exec "$@" --help', "sh", program()).status)
