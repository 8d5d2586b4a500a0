"""The program against a second opinion: random sessions are run by the program and by pp6600-python, and all that is
written is compared byte for byte.

    PP6600_RANDOM=SEED:COUNT   runs COUNT sessions from seed SEED on; SEED:1 repeats one. The default is 0:700

The first difference ends the run. Its session is made small and kept in a folder that is named. With -v each test
ends with how often each instruction, case, form of a line, error and fault has occurred; by default each must occur.
Not tried here: the limit of a script in bytes, no memory, and a read that fails after some bytes.
"""
import collections
import dataclasses
import os
import subprocess
import sys
import unittest

from tests.generator import WORDS, Maker, Session, kept, word_line
from tests.support import Case, program, write

from pp6600.engine.plain.lines import FORMS, PlainConsole
from pp6600.engine.plain.instructions import INSTRUCTIONS
from pp6600.engine.plain.machine import Machine
from pp6600.engine.plain.program import console_of
from pp6600.engine.plain.program import run as run_python

# How often each instruction, case, row of a device, form of a line, error and exit status has occurred.
seen = collections.Counter()


class CountedMachine(Machine):
    def writes_of(self, part):
        what, writes = part(self)
        seen[what] += 1
        return writes


class CountedConsole(PlainConsole):
    def answer(self, line):
        answer = super().answer(line)
        if answer and answer[0].startswith("ERR"):
            seen[answer[0][:6]] += 1
        return answer

    def perform(self, words):
        answer = super().perform(words)
        form = " ".join(words[:2])
        seen[form if form in FORMS else words[0]] += 1
        return answer


def counted(given):
    """Returns the console of a machine with these options and their files; what it does is counted."""
    return CountedConsole(console_of(given, CountedMachine).machine)


def shrunk(session, differs):
    """Returns the session without the lines and the words that the difference does not need."""
    for name in 'lines', 'words':
        size = len(getattr(session, name))
        while size > 0:
            start = 0
            while start < len(getattr(session, name)):
                items = getattr(session, name)
                smaller = dataclasses.replace(session, **{name: items[:start] + items[start + size:]})
                if differs(smaller):
                    session = smaller
                else:
                    start += size
            size //= 2
    return session


def limits():
    """Returns sessions that reach the limits of the paper, the history, the lines, the files and the options."""
    line_ends = [f'SET M {n:o} {a:o} {words}'.encode() for n in range(10) for a, words in (
        (0, '7713 3 7713 3 7713 3 7713 3'), (0o10, '7713 3 7713 3 7713 3 7713 3'), (0o20, '100 0'))]
    elsewhere = [f'SET P {n:o} 1000'.encode() for n in range(10)]
    program = [b'SET M 0 400 7713 2 7413 7013 7713 3 7713 2', b'SET M 0 410 7413 7013 7713 1 7413 7213', b'SET P 0 400']
    state = [b'STEP 200', b'DUMP PP 0', b'DUMP H', b'SET H 13 I', b'SET P 0 404']
    # Two more symbols fit, then one, then none.
    paper = [*line_ends, b'STEP 217774', *elsewhere, *program, *state, *state, *state, b'DUMP LP']
    turns = [b'STEP 30000', b'BACK 23421', b'BACK 23420', b'DUMP H', b'FORWARD 23421', b'FORWARD 23420', b'DUMP H']
    change = [b'SET A 0 1', b'WATCH A 0', b'STEP 23416', b'BACK W', b'FORWARD 23420', b'STEP', b'BACK W', b'']
    hit = [b'WATCH H 14', b'STEP 1000000', b'BACK 1000000', b'FORWARD 1000000', b'STEP 1000001']
    note, panel = b'*' * 1023 + b'\n', b'1 2 3 4 5 6 7 10 11 12 13 14'
    files = [
        (b'1\n' * 2000, panel), (b'1\n' * 2001, panel), (b'1\n' * 2001 + b'8', b''), (b'1\n' * 2001, b''),
        (b'0 ' * 600, b''), (note * 1024, note * 1023 + panel), (note * 1024 + b'0', panel), (b'1', note * 1024 + b'1'),
        (note * 1023 + note[:-1] + b'80', panel), (note * 1023 + b'8\n' + note, panel), (b'1', panel + b' 15\n8'),
        (b'1', panel[:-3] + b'\n8'), (b'1', panel + b'\n15 8')]
    lines = [[b'DUMP CR', *[b''] * (1000000 - 2), b'DUMP W', *more] for more in ([b''], [b'*'])]
    return [
        *(Session([], {}, lines) for lines in (paper, turns, change, hit, *lines)),
        *(Session(words, {'deck': b'1', 'panel': panel}, [b'DUMP CR']) for words in WORDS),
        *(Session(['--deck', 'deck', '--panel', 'panel'], {'deck': deck, 'panel': panel},
                  [b'DUMP CR', b'DEADSTART', b'DUMP M 0 0 15']) for deck, panel in files),
        Session(['--reader', '13', '--deck', 'deck'], {'deck': b'1\n' * 2001}, []),
        Session(['--reader', '13', '--deck', 'deck', '--panel', 'panel'], {'deck': b'1\n' * 2001, 'panel': b'8'}, [])]


EXPECTED = [
    *(name for name, _, _ in INSTRUCTIONS.values()), *FORMS, 'dead start', 'dead start in a block',
    *(f'{name} waits' for name in ('70 IAN', '72 OAN', '74 ACN', '75 DCN', '76 FAN', '77 FNC')),
    *(f'block 61 case {case}' for case in '12'), *(f'block 63 case {case}' for case in '13'),
    *(f'block 71 case {case}' for case in '14689'), *(f'block 73 case {case}' for case in '1579'),
    *(f'reader {row}' for row in ('0001 mode 0', '0001 mode 1', '0002', 'column', 'card end', 'sent')),
    'reader status True', 'reader status False',
    *(f'printer {row}' for row in ('0001', '0002', '0003', 'prints 0', 'prints 2', 'status True', 'sent')),
    *(f'ERR {number:02o}' for number in range(1, 0o17)), *(f'status {status}' for status in range(4)),
    'BAD ARGUMENTS', 'BAD CHANNEL', 'SAME CHANNEL', 'CANNOT OPEN DECK', 'CANNOT OPEN PANEL', 'CANNOT OPEN SCRIPT',
    *(f'{name} LINE k {fault}' for name in ('DECK', 'PANEL') for fault in ('TOO LONG', 'NOT OCTAL', 'TOO LARGE')),
    'DECK LINE k TOO MANY WORDS', 'PANEL PANEL COUNT', 'READ FAILED', 'WRITE FAILED']
EXPECTED_LIMITS = ['printer status False', 'DECK FILE TOO LONG', 'PANEL FILE TOO LONG', 'DECK TOO LONG', 'LINE LIMIT']


class RandomSessions(Case):
    def setUp(self):
        self.program = program()
        self.addCleanup(os.chdir, os.getcwd())
        os.chdir(self.room())
        seen.clear()

    def outcomes(self, session):
        """Returns of the program and of pp6600-python: the exit status, and the texts on standard error and output."""
        for name, data in session.all_files().items():
            write(os.path.abspath(name), data)
        with open('/dev/full', 'wb') as full:
            standard_input = os.open(session.standard_input, os.O_RDONLY)
            run = subprocess.run(
                [self.program, *session.words], check=False, stdin=standard_input, stderr=subprocess.PIPE,
                stdout=full if session.output_fails else subprocess.PIPE)
            os.close(standard_input)
        answers = []

        def output(text):
            if session.output_fails and text:
                raise OSError
            answers.append(text)
        try:
            status, fault = run_python(session.words, session.standard_input, output, counted)
        except Exception as error:  # a fault of pp6600-python is a difference like any other
            status, fault = type(error).__name__, str(error)
        return (run.returncode, run.stderr.decode(), (run.stdout or b'').decode()), (status, fault, ''.join(answers))

    def differs(self, session):
        of_program, of_python = self.outcomes(session)
        return of_program != of_python

    def compare(self, name, session, make_small=True):
        """Runs a session, fails if there is a difference, and counts how it has ended."""
        of_program, of_python = self.outcomes(session)
        if of_program != of_python:
            if make_small:
                session = shrunk(session, self.differs)
                name = f'{name}\n{kept(session)}'
            self.fail_with(name, session)
        status, fault, _ = of_python
        seen[f'status {status}'] += 1
        seen[' '.join('k' if word.isdigit() else word for word in fault.split()[1:]) or 'no fault'] += 1

    def fail_with(self, name, session):
        texts = ([f'status {status}', *fault.splitlines(), *answers.splitlines(), 'no further line']
                 for status, fault, answers in self.outcomes(session))
        of_program, of_python = next(lines for lines in zip(*texts) if lines[0] != lines[1])
        self.fail(f'{name}\nprogram: {of_program}\npython:  {of_python}')

    def check_seen(self, expected):
        if {'-v', '--verbose'} & set(sys.argv):
            print('', *(f'{number:9} {name}' for name, number in sorted(seen.items())), sep='\n')
        self.assertEqual([name for name in expected if not seen[name]], [])

    def test_sessions(self):
        seed, count = map(int, os.environ.get('PP6600_RANDOM', '0:700').split(':'))
        for number in range(seed, seed + count):
            self.compare(f'PP6600_RANDOM={number}:1', Maker(number).session())
        self.check_seen([] if 'PP6600_RANDOM' in os.environ else EXPECTED)

    @unittest.skipIf('PP6600_RANDOM' in os.environ, 'only random sessions are asked for')
    def test_words(self):
        """Words of the command line, right and wrong, of which all but a few end the program at once."""
        files = {'deck': b'1', 'panel': b'1 2 3 4 5 6 7 10 11 12 13 14'}
        for number in range(500):
            self.compare(f'words {number}', Session(word_line(number), files, [b'STEP']))

    @unittest.skipIf('PP6600_RANDOM' in os.environ, 'only random sessions are asked for')
    def test_limits(self):
        for number, session in enumerate(limits()):
            self.compare(f'limit {number}', session, make_small=False)
        self.check_seen(EXPECTED_LIMITS)
