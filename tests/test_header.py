"""Tests that each list of the library's calls is that of the header, crates/pp_library/pp6600.h: the exports, Python's and
JavaScript's."""

import glob
import os
import re

from tests.support import TOP, Case, read

from pp6600.engine.arguments import NUMBERS as CHECKED

PREFIX_OF = {"disassemble": "cell"}  # a call whose numbers are the first ones of each structure in an array


def bare(header):
    return re.sub(r"/\*.*?\*/", "", header, flags=re.S)


def calls_of(header):
    """Returns the calls of a header, each with the bits of the numbers that it takes by value."""
    found = {name: [re.fullmatch(r"\s*uint(\d+)_t\s+\w+\s*", one) for one in words.split(",")]
             for name, words in re.findall(r"^uint32_t pp6600_(\w+)\(([^)]*)\);", bare(header), re.M)}
    return {name: tuple(int(one[1]) for one in words if one) for name, words in found.items()}


def structures_of(header):
    """Returns the structures of numbers of a header, each with their bits."""
    return {name: tuple(int(bits) for bits, names in re.findall(r"uint(\d+)_t ([^;]+);", body) for _ in names.split(","))
            for body, name in re.findall(r"^typedef struct \{(.*?)\} pp6600_(\w+);", bare(header), re.M | re.S)}


HEADER = read("crates", "pp_library", "pp6600.h")
CALLS, STRUCTURES = calls_of(HEADER), structures_of(HEADER)
NUMBERS = {name: bits for name, bits in CALLS.items() if bits}


def in_header(name, bits):
    """Whether these are the bits of the numbers of a call or of a structure."""
    if name in PREFIX_OF:
        return STRUCTURES[PREFIX_OF[name]][:len(bits)] == bits
    return NUMBERS.get(name, STRUCTURES.get(name)) == bits


class Header(Case):
    def test_exports(self):
        paths = glob.glob(os.path.join(TOP, "crates", "pp_library", "src", "**", "*.rt"), recursive=True)
        exported = [name for path in paths for name in re.findall(r'extern "C" fn pp6600_(\w+)', read(path))]
        self.assertEqual(sorted(CALLS), sorted(exported))

    def test_python(self):
        """Python checks the numbers of each call that takes some, by their bits, and names every call."""
        self.assertEqual([], [name for name, bits in CHECKED.items() if name != "place"
                              and not in_header(name, tuple(bits.values()))])
        self.assertEqual(set(), set(NUMBERS) - set(CHECKED))
        text = "".join(map(read, glob.glob(os.path.join(TOP, "tools", "pp6600", "engine", "*.py"))))
        self.assertEqual([], [name for name in CALLS if not re.search(rf'"{name}"|\bpp6600_{name}\b', text)])

    def test_javascript(self):
        """JavaScript checks the numbers of the calls that it has by the same bits."""
        text = read("tools", "pp6600", "front", "film", "web", "engine", "library.mjs")
        table = re.search(r"^const NUMBERS = \{(.*?)^\}", text, re.S | re.M)[1]
        found = {name: tuple(map(int, re.findall(r"\w+: (\d+)", numbers)))
                 for name, numbers in re.findall(r"(\w+): \{ ([^}]+) \}", table)}
        self.assertEqual([], [name for name, bits in found.items() if not in_header(name, bits)])
        self.assertLess(8, len(found))
