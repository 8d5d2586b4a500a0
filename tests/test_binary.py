"""Binary files: the records of a tape, and files of words in each form that docs/TOOLS.md has."""

import contextlib

from tests.support import Case

from pp6600 import Failure
from pp6600.convert.binary import program_in, records_of
from pp6600.language.display_code import words_of

LABEL = b"VOL1DEAD".ljust(80)
END = 0o17


def display(name, size):
    """Returns a name in display code, with zeros after it, in so many words."""
    codes = "".join(words_of(name))[:2 * len(name)].ljust(4 * size, "0")
    return [int(codes[at:at + 4], 8) for at in range(0, 4 * size, 4)]


def program(name, address, words, prefix=True, with_header=1):
    """Returns the record of a program: a prefix table of 17 words (octal) with its name, a header, and its words, with zeros to the
    end of a word of 60 bits."""
    words = [*words, *[0] * (-len(words) % 5)]
    header = [*display(name[:3], 2), address, 0, len(words) // 5 + with_header]
    return [*([0o7700, 0o16, 0, 0, 0, *display(name, 4), 0, *[0] * 5 * 0o15] if prefix else []), *header, *words]


def packed(words):
    """Returns two words in three bytes."""
    return bytes.fromhex("".join(f"{word:03x}" for word in words) + "0" * (len(words) % 2))


def block(data):
    """Returns a record of a tape file: its length, its bytes, one of 0 if they are odd, and the length again."""
    size = len(data).to_bytes(4, "little")
    return size + data + bytes(len(data) % 2) + size


def tape(files, form, labels=True):
    """Returns a tape of files of records, in blocks of 512 (decimal) words of 60 bits. Form I ends each file with a block of level
    17, form SI with a tape mark."""
    found, number = (block(LABEL) + block(b"HDR1".ljust(80)) + bytes(4) if labels else b""), 0
    for records in files:
        for words, level in [*((words, 0) for words in records), *([([], END)] if form == "I" else [])]:
            for at in range(0, len(words) + 1, 2560):
                part, number = words[at:at + 2560], number + 1
                is_last = len(part) < 2560
                end = ([len(part) + 4, number >> 12, number & 0o7777, level] if form == "I"
                       else [0o5523, 0o3645, 0o2000, level] * is_last)
                found += block(packed([*part, *end]))
        found += bytes(4) if form == "SI" else b""
    return found + bytes(8)


def sixty(words):
    return [int("".join(f"{word:04o}" for word in words[at:at + 5]), 8) for at in range(0, len(words), 5)]


FILES = {"packed": packed, "two bytes": lambda words: b"".join(word.to_bytes(2, "big") for word in words),
         "two bytes swapped": lambda words: b"".join(word.to_bytes(2, "little") for word in words),
         "eight bytes": lambda words: b"".join(word.to_bytes(8, "big") for word in sixty(words)),
         "eight bytes swapped": lambda words: b"".join(word.to_bytes(8, "little") for word in sixty(words)),
         "octal digits": lambda words: "".join(f"{word:020o}\n" for word in sixty(words)).encode()}
SMALL, LARGE = list(range(0o1401, 0o1420)), [at * 5 & 0o7777 for at in range(0o7000)]


AT_THE_END = program("1AJ", 0o7750, SMALL)
WHOLE = [*(tape([[AT_THE_END, program("ABC", 1, SMALL, False)]], form) for form in ("I", "SI")),
         *(write(AT_THE_END) for write in FILES.values())]


class Records(Case):
    def test_tapes(self):
        """Records of all lengths around that of a block, in files, with labels and without."""
        for form in "I", "SI":
            for size in 5, 2545, 2550, 2555, 2560, 3000:
                for labels in False, True:
                    with self.subTest(form=form, size=size, labels=labels):
                        files = [[program("ONE", 0o100, SMALL), program("TWOLONG", 0o20, LARGE[:size])],
                                 [program("1AJ", 7, SMALL, False), [0o100, 2, 3, 4, 5]]]
                        found = records_of(tape(files, form, labels), "tape")
                        self.assertEqual([(1, 1, "ONE", "PP"), (1, 2, "TWOLONG", "PP"), (2, 1, "1AJ", "PP"), (2, 2, "A", "OTHER")],
                                         [(one.file, one.number, one.name, one.kind) for one in found])
                        self.assertEqual(dict(enumerate(LARGE[:size], 0o20)), found[1].cells)
                        self.assertEqual(dict(enumerate(SMALL, 7)), found[2].cells)

    def test_files_of_words(self):
        for prefix in True, False:
            for with_header in 0, 1:
                words = program("1AJ", 0o1000, SMALL, prefix, with_header)
                for name, written in FILES.items():
                    with self.subTest(name, prefix=prefix, with_header=with_header):
                        (found,) = records_of(written(words), "file")
                        self.assertEqual(("1AJ", "PP", SMALL), (found.name, found.kind, list(found.cells.values())[:len(SMALL)]))
                        self.assertEqual(0o1000, min(found.cells))

    def test_row(self):
        (found,) = records_of(packed(program("1AJ", 0o1000, SMALL)), "file")
        self.assertEqual("1 1 1AJ     PP    4 WORDS AT 1000 TO 1016", found.row)

    def test_one_of_two_programs(self):
        """The first one of a name is taken, and a record of the name that is no program is passed over."""
        table = [0o7700, 0o16, 0, 0, 0, *display("SAME", 4), 0, *[0] * 5 * 0o15]
        records = records_of(tape([[[*table, 0o5300, 0, 0, 0, 0], program("SAME", 1, SMALL), program("SAME", 2, SMALL)]], "I"),
                             "tape")
        self.assertEqual((["OVL", "PP", "PP"], 1), ([one.kind for one in records], min(program_in(records, "same", "tape").cells)))
        for wanted, message in (("OTHER", "^tape has no record OTHER that is a program"), (":", "^tape has no record :")):
            with self.assertRaisesRegex(Failure, message):
                program_in(records, wanted, "tape")
        with self.assertRaisesRegex(
            Failure, "^SAME of tape is a record of kind OVL, and no program of a peripheral processor; load --binary tape"):
            program_in(records[:1], "SAME", "tape")


class Damaged(Case):
    """A damaged file is read, or refused with one line."""

    def read(self, data):
        """Returns the programs of a file; none if it is refused."""
        with contextlib.suppress(Failure):
            found = records_of(bytes(data), "file")
            self.assertNotIn("\n", "".join(one.row for one in found))
            return [one.cells for one in found if one.is_program]
        return []

    def test_each_cut(self):
        """What is left of a program is none."""
        for data in WHOLE:
            whole = self.read(data)
            for at in range(len(data)):
                found = self.read(data[:at])
                self.assertEqual(whole[:len(found)], found)

    def test_each_bit(self):
        for data in WHOLE:
            for at in range(8 * len(data)):
                wrong = bytearray(data)
                wrong[at // 8] ^= 1 << at % 8
                for cells in self.read(wrong):
                    self.assertLessEqual(max(cells), 0o7777)

    def test_what_is_no_file(self):
        for data, message in ((b"", "^file has no record$"), (b"\0", "^file is no tape file, and begins in no known form"),
                              (b"*" * 75, "no known form"),
                              (block(packed(SMALL[:7])), "^block 1 .decimal. of file has 7 words of 12 bits"),
                              (b"0123\n", "twenty"), (block(packed(SMALL[:5]))[:-1], "is cut off"),
                              (block(packed([*SMALL[:5]] * 512)), "ends within record 1 of file 1, octal"),
                              (bytes(8), "no record")):
            with self.subTest(data[:20]), self.assertRaisesRegex(Failure, message):
                records_of(data, "file")
