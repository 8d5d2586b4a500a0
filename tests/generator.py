"""Makes random programs and sessions. A session follows from its seed and its profile alone."""

import dataclasses
import os
import random
import shlex
import tempfile

from tests.cases import Stored, stored_blocks
from tests.support import write

from pp6600.engine.plain.lines import FORMS, PlainConsole
from pp6600.engine.plain.instructions import TWO_WORDS
from pp6600.engine.plain.machine import Machine


@dataclasses.dataclass
class Session:
    """The words after the program's name, the files, and the lines of the script, which is standard input too."""
    words: list
    files: dict
    lines: list
    standard_input: str = 'script'
    output_fails: bool = False

    def all_files(self):
        return {**self.files, 'script': b'\n'.join(self.lines)}

    def stored(self, name):
        """Returns the session as a case."""
        return Stored(name, self.words, b'\n'.join(self.lines), self.all_files())


@dataclasses.dataclass(frozen=True)
class Profile:
    """What the sessions of a kind have. Shares are percents, and of numbers in a tuple one is taken by chance."""
    codes: tuple = tuple(range(64))  # of most instructions
    parts: int = 45  # the share of PARTS in programs
    bases: tuple = (0, 0o20, 0o100, 0o100, 0o7760)  # where programs begin
    processors: tuple = (1, 2, 3, 10)  # how many have one
    steps: tuple = (1, 1, 20, 20, 60, 300, 700)  # the most turns of a STEP
    actions: tuple = (2, 25)  # the fewest and the most
    lines: tuple = (('step', 45), ('move', 10), ('watched', 5), ('start', 4), ('watch', 4), ('form', 18), ('spoilt', 14))
    dumps: int = 15  # the share of actions that dumps follow
    is_near: bool = False  # programs use few cells and channels, and nothing is watched at first


ALL = Profile()
# Stores, block transfers, channels, central memory and exchange; few lines are refused.
BUSY = Profile(codes=(0o02, 0o10, 0o14, 0o16, 0o20, 0o26, 0o27, *range(0o34, 0o40), *range(0o44, 0o50), *range(0o54, 0o64),
                      *range(0o70, 0o100)),
               bases=(0, 0, 0o100, 0o7770), processors=(1, 2, 3), steps=(0o100,), actions=(20, 60), dumps=0,
               lines=(('step', 40), ('move', 12), ('watched', 3), ('start', 3), ('watch', 4), ('form', 36), ('spoilt', 2)))
# Programs that count, wait and jump round, and settings of what they use.
LOOPS = Profile(codes=(0o14, 0o16, 0o30, 0o34, 0o36, 0o50, 0o54, 0o55, *range(0o03, 0o10), *range(0o64, 0o76)), parts=0,
                bases=(0o100,), processors=(1, 2, 3, 4), steps=(0o300,), actions=(2, 10), dumps=0, is_near=True,
                lines=(('step', 50), ('back', 10), ('setting', 40)))
# The same, and watches of what they use.
WATCHED = dataclasses.replace(LOOPS, lines=(('step', 50), ('back', 6), ('setting', 25), ('watch_near', 14), ('start', 5)))

FIXED = {'back': 'BACK 3', 'watched': 'BACK W', 'start': 'DEADSTART'}  # lines of one kind
ROWS = dict(stored_blocks('random.txt')[1])
PARTS = ROWS['parts']
JUNK = [word for line in ROWS['junk'] for word in shlex.split(line)]
WORDS = [shlex.split(line) for line in ROWS['words']]
OPTIONS = ('--history', '--central', '--deck', '--reader', '--printer', '--panel', '--help', '-h', '--', '-', '--deck\n')
VALUES = ('1', '10000', '10001', '32', '128', '0', '7', '12', '13', '14', 'deck', 'panel', 'script', 'absent', '.', '', '-', '--',
          '-\n', '\n', ' ', '=', 'a=b', '\u00e9', '7\n', '+1', '08', '1_0', '\u0661')


def word_line(seed):
    """Returns random words of the command line, which follow from the seed."""
    chosen = random.Random(seed)
    words = []
    for _ in range(chosen.randrange(1, 6)):
        kind, option, value = chosen.random(), chosen.choice(OPTIONS), chosen.choice(VALUES)
        letters = ''.join(chosen.choice('-=dh1 \n') for _ in range(chosen.randrange(1, 5)))
        words += (chosen.choice(WORDS) if kind < .3 else [option, value] if kind < .6 else [f'{option}={value}'] if kind < .75 else
                  [value] if kind < .9 else [letters])
    return words


class Maker:
    """Makes one random session."""

    def __init__(self, seed, profile=ALL):
        self.profile = profile
        self.random = random.Random(seed)
        self.choice, self.below = self.random.choice, self.random.randrange
        self.words, self.lines, self.actions = [], [], 0
        self.base = self.choice(profile.bases)
        self.processors = self.random.sample(range(10), self.choice(profile.processors))
        self.channels = [self.below(12), self.below(12)]
        self.parts = self.random.sample(PARTS, self.choice((1, 3, 3, len(PARTS))))

    def chance(self, percent):
        return self.below(100) < percent

    def script(self):
        """Returns the lines of a script for a simulator with a deck of its own, a panel and a small central memory."""
        self.set_machine(10000, 32, 0o12, 0o13)
        self.add_machine()
        for _ in range(self.random.randint(*self.profile.actions)):
            self.add_action()
        return [line.decode('latin-1') for line in self.lines]

    def session(self):
        """Returns a session with random options and files."""
        self.choose_options()
        files = {'deck': self.deck(), 'panel': self.panel()}
        self.add_machine()
        for _ in range(self.random.randint(*self.profile.actions)):
            self.add_action()
        self.add_dumps()
        session = Session(self.words, files, self.lines + [b''] * self.chance(90))
        if self.chance(8):
            session.words = [word for _ in range(self.choice((1, 1, 2, 3))) for word in self.choice(WORDS)]
        elif self.chance(4):
            session.standard_input, session.output_fails = self.choice((('.', False), ('script', True)))
        return session

    # Numbers

    def number(self):
        """Returns a number that is likely to matter: small, near the programs, near the end of a range, or any."""
        near = self.base + self.below(40)
        end = self.choice((0o10000, self.central, 0o400000, 0o1000000)) - self.below(3)
        any_number = self.below(2 ** self.choice((12, 18, 60)))
        return self.choice((self.below(4), self.below(0o20), near, near, end, any_number))

    def channel(self):
        return self.choice(self.channels * 4 + [self.below(12), 0o14, 0o15, 0o77])

    def instruction(self):
        """Returns the words of an instruction."""
        code = self.choice(self.profile.codes) if self.chance(90) else self.below(64)
        if self.profile.is_near:
            return self.near_instruction(code)
        d = self.choice((0, 1, 2, 3, 0o37, 0o40, 0o74, 0o75, 0o76, 0o77, self.below(64), self.below(64), self.below(8)))
        if code >= 0o64:
            d = self.channel()
        return [code << 6 | d] + [self.number() % 0o10000] * (code in TWO_WORDS)

    def near_instruction(self, code):
        """Returns the words of an instruction that uses cells 0020 on, the channels 00 to 02, and the program."""
        d, m = 0o20 + self.below(8), self.base + self.below(0o20)
        if code < 0o10:
            d = self.choice((1, 2, 3, 0o76, 0o75, 0o74, 0))
        elif code >= 0o60:
            d, m = self.below(3), 0o300 + self.below(8) if code in (0o71, 0o73) else m
        elif code >= 0o50:
            d, m = 0, self.choice((0o20, m))
        return [code << 6 | d] + [m] * (code in TWO_WORDS)

    def part(self):
        """Returns the words of a part of a program."""
        kk, cc = self.choice((0, 1, 2, 7, 0o37, 0o50, 0o77, self.below(64))), self.channel()
        numbers = {'kk': kk, 'cc': cc, 'rr': self.channels[-2], 'pp': self.channels[-1], 'zz': self.central >> 12}
        text = self.choice(self.parts)
        for letters, number in numbers.items():
            text = text.replace(letters, f'{number:02o}')
        return [self.number() % 0o10000 if word == 'm' else int(word, 8) for word in text.split()]

    def operand(self, kind):
        if kind == 'S':
            return self.choice('IEF')
        _, greatest = self.ranges[kind]
        number = self.below(40) if kind == 'count' else self.number()
        if kind == 'n' and self.chance(80):
            number = self.choice(self.processors)
        if kind in ('h', 'h14') and self.chance(80):
            number = self.channel()
        number = number % (greatest + 1) if self.chance(98) else self.choice((greatest, greatest + 1, 0))
        return f'{number:o}'.zfill(self.choice((0, 0, 0, 0, 6, 24)))

    # Lines

    def add(self, *words):
        self.lines.append(' '.join(word if isinstance(word, str) else f'{word:o}' for word in words).encode())

    def add_machine(self):
        """Adds lines that set programs, which end with a jump to their beginning, and other numbers."""
        for n in self.processors:
            cells, length = [], self.choice((8, 16, 24))
            while len(cells) < length:
                cells += self.part() if self.chance(self.profile.parts) else self.instruction()
            cells += [0o0100, self.base]
            low = [self.number() % 0o10000 for _ in range(8)]
            for a, numbers in [(0, low), *((self.base + i, cells[i:i + 8]) for i in range(0, len(cells), 8))]:
                self.add('SET M', n, a % 0o10000, *numbers)
            self.add('SET P', n, self.base)
            self.add('SET A', n, self.number() % 0o1000000)
        for _ in range(self.below(4)):
            self.add('SET C', self.number() % self.central, self.number() << self.choice((0, 0, 36)) & 2 ** 60 - 1)
            self.add('SET H', self.channel() % 12, self.choice('IEF'), self.below(4))
        for _ in range(0 if self.profile.is_near else self.choice((0, 0, 1, 3, 10))):
            self.add(*self.form('WATCH'))

    def form(self, command=''):
        """Returns the words of a random line."""
        form = self.choice([form for form in FORMS if form.startswith(command)])
        kinds, least, _ = FORMS[form]
        kinds = kinds.split()
        operands = [self.operand(kind) for kind in kinds[:least + self.below(len(kinds) - least + 1)]]
        if form in ('DUMP M', 'DUMP C'):  # few lines, and now and then none
            operands[-1] = f'{max(0, int(operands[-2], 8) + self.below(20) - 1):o}'
        return form.split() + operands

    def add_spoilt(self):
        """Adds a line that is unusual, and mostly rejected."""
        words = self.form(self.choice(('', '', 'SET', 'SET H')))
        at = self.below(len(words) + 1)
        words[at:at + self.below(2)] = [self.choice(JUNK)] if self.chance(80) else []
        if words[:1] in (['STEP'], ['DUMP']) and any(len(word.lstrip('0')) in (5, 6, 7) for word in words):
            words = ['BACK', *words[1:]]  # neither a million turns nor words
        line = self.choice((' ', '\t', '  ')).join(words).encode()
        line = self.choice((line, line.lower(), b' ' + line + b'\t', line + b'\r', b'* ' + line, line))
        if self.chance(25):
            line = line.ljust(self.choice((254, 255, 256, 257, 1000)), self.choice((b' ', b'0', b'*')))
            line += b'\r' * self.below(2)
        if self.chance(20):
            at = self.choice((0, len(line), self.below(len(line) + 1)))
            odd = b'\r', b'\r\r', b'\0', b'\x1f', b'\x7f', b'\x80', b'\xc3\xaf', b'\x0b', b'\x0c', b'~', b'*'
            line = line[:at] + self.choice(odd) + line[at:]
        self.lines.append(line)

    def add_dumps(self):
        """Adds dumps of the machine; of all cells now and then."""
        whole = self.chance(2)
        ranges = [(0, 0o27), (self.base, min(self.base + 0o47, 0o7777)), (0o7770, 0o7777)]
        for n in range(10):
            self.add('DUMP PP', n)
            if whole or n in self.processors:
                for a, b in [(0, 0o7777)] if whole else ranges:
                    self.add('DUMP M', n, a, b)
        for a in 0, self.base, self.central - 8:
            self.add('DUMP C', a, a + 7)
        for kind in 'H', 'XP', 'CR', 'LP', 'W':
            self.add('DUMP', kind)

    def add_action(self):
        """Adds a line or two of a kind of the profile."""
        kinds, weights = zip(*self.profile.lines)
        self.add_kind(self.random.choices(kinds, weights)[0])
        if self.chance(self.profile.dumps):
            self.add_dumps()

    def add_kind(self, kind):
        self.add(FIXED[kind]) if kind in FIXED else getattr(self, f'add_{kind}')()

    def add_step(self):
        turns = 1 + self.below(self.choice(self.profile.steps))
        self.actions += turns
        self.add('STEP', turns)

    def add_move(self):
        few, kept = self.below(20), self.below(self.actions + 2)
        count = self.choice((few % 3, few, kept, self.history - 1, self.history))
        self.add('BACK', count + 1)
        for _ in range(self.below(3)):
            self.add('FORWARD', self.below(count + 2) + 1)

    def add_watch(self):
        watches = [line for line in self.lines if line.startswith(b'WATCH')] or [b'WATCH A 0']
        self.lines.append(self.choice((b'', b'UN')) + self.choice(watches))

    def add_form(self):
        self.add(*self.form(self.choice(('', 'SET', 'SET H'))))

    def add_setting(self):
        """Adds a line that sets what programs of LOOPS use."""
        n = self.choice(self.processors)
        self.add(*self.choice((('SET A', n, self.below(100)), ('SET P', n, self.base + self.below(8)),
                               ('SET H', self.below(3), 'E', 5), ('SET M', n, 0o20, self.below(9)))))

    def add_watch_near(self):
        """Adds a line that watches what programs of LOOPS use, or ends this."""
        self.add(self.choice(('WATCH', 'UNWATCH')), *self.choice((('H', 1), ('M', 0, 0o20), ('A', self.choice(self.processors)))))

    # Options and files

    def choose_options(self):
        reader, printer = self.random.sample(range(12), 2)
        options = [
            (35, '--history', self.choice(('1', '2', '3', '10', '0100', '10000'))),
            (35, '--central', self.choice(('32', '64', '128'))), (70, '--deck', 'deck'), (60, '--panel', 'panel'),
            (35, '--reader', f'{reader:o}', '--printer', f'{printer:o}'), (30, 'script')]
        chosen = [words for percent, *words in options if self.chance(percent)]
        self.random.shuffle(chosen)
        self.words = [word for words in chosen for word in words]
        given = dict(zip(self.words, self.words[1:]))
        self.set_machine(int(given.get('--history', 10000)), int(given.get('--central', 128)),
                         int(given.get('--reader', '12'), 8), int(given.get('--printer', '13'), 8))

    def set_machine(self, history, central, *devices):
        """Sets the numbers of actions kept and of central words (in 1024), and the channels of the devices."""
        self.history, self.central = history, central * 1024
        self.ranges = PlainConsole(Machine(central=self.central)).ranges
        self.channels += devices

    def deck(self):
        cards = [self.below(0o10000) if self.chance(70) else 0 for _ in range(self.choice((0, 3, 80, 100, 240)))]
        return self.file(cards, self.choice((1, 20, 80, 80, 80)))

    def panel(self):
        c = self.below(9) + 1
        panel = [0o1404, 0o7300 + c, 0o11, 0o7500 + c, 0o0300, 0, 0, 0, self.base, 0o1400, 0o7301, 0]
        while self.chance(50):
            panel = self.part() + panel
        return self.file(panel[:12], self.choice((1, 4, 8, 12)))

    def file(self, numbers, width):
        """Returns the bytes of a deck or panel file; it has notes, and rarely a fault."""
        rows = [' '.join(f'{number:o}' for number in numbers[i:i + width]) for i in range(0, len(numbers), width)]
        for _ in range(self.below(3)):
            rows.insert(self.below(len(rows) + 1), self.choice(('', ' \t', '* na\xefve', ' *', '*' * 1023)))
        text = self.choice(('\n', '\r\n', ' \n')).join(rows) + self.choice(('\n', '\r', ''))
        while self.chance(6):
            at = self.choice((0, len(text), self.below(len(text) + 1)))
            faults = '8', ' 10000 ', ' 77777777 ', '\f', '\r', '\xe9', ' 0' * 81, '*', ' ' * 1024, '\n0\n', ' 1 '
            text = text[:at] + self.choice(faults) + text[at:]
        return text.encode('latin-1')


def kept(session):
    """Writes the files of a session into a new folder, which stays, and returns the command that repeats it there."""
    folder = tempfile.mkdtemp(prefix='pp6600-differs-')
    for name, data in session.all_files().items():
        write(os.path.join(folder, name), data)
    return f"cd {folder}; {shlex.join(['pp6600', *session.words])} <{session.standard_input}{' >/dev/full' * session.output_fails}"
