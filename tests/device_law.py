"""What a session with devices is, `Definition`, and random sessions that are compared with it."""

import itertools
import random

from tests.support import program

from pp6600 import EMPTY, INACTIVE, NOTHING, Attached, CentralDevice, Console, Device, full, store, wake
from pp6600.language.cells import set_lines
from pp6600.devices.card_reader import CardReader
from pp6600.devices.controller import Controller
from pp6600.devices.line_printer import LinePrinter
from pp6600.run.central_device import Change, Store
from pp6600.run.device import Event

STEP = "STEP"
OTHER_CHANNEL = 7  # without a device
PANEL = "100 100" + 10 * " 0"  # a jump to cell 0100
DUMPS = [f"DUMP {what}" for n in range(10) for what in (f"PP {n:o}", f"M {n:o} 0 777")]
DUMPS += ["DUMP H", "DUMP C 0 77", "DUMP LP", "DUMP W"]
METHODS = {"X": "function", "F": "word", "I": "disconnected"}


class Definition:
    """What a session with devices is. A fresh machine performs the units in effect, one after the other. After each turn each
    device, in its order, looks at its channel or at its words, as the turn left them; then the replies are performed, in the same
    order. A unit is the line of an action, or a pair: the number of a device and what it is told."""

    def __init__(self, words, devices, units=()):
        self.console, self.devices = Console(["plain", *words[1:]]), devices
        self.states = [device.start for device in devices]
        self.seen = [dict.fromkeys(device.words, 0) if isinstance(device, CentralDevice) else "I 0000" for device in devices]
        # calls of `due` and stores to come, each with its turn, in the order in which they were asked for
        self.asked = [[] for _ in devices]
        self.turn, self.units, self.hits, self.script, self.positions = 0, [], [], [], [0]
        for unit in units:
            self.perform(unit)

    def perform(self, unit):
        """Performs a unit, and notes its HIT."""
        self.units.append(unit)
        self.hits.append(None)
        if unit == STEP:
            self.make_turn()
        elif isinstance(unit, tuple):
            number, what = unit
            self.act(f"SET Q 0 {self.console.registers(0)['Q']}")
            device = self.devices[number]
            stores = (self.call_central(number, "told", 0, 0, what) if isinstance(device, CentralDevice)
                      else self.call(number, "told", what))
            self.reply([stores if other == number else [] for other, _ in enumerate(self.devices)])
        else:
            self.act(unit)
        self.positions.append(len(self.script))

    def act(self, line):
        """Performs an action that is no turn."""
        assert self.console.ask(line) == ["OK"], line
        self.script.append(line)

    def make_turn(self):
        watches, turn = self.console.ask_each(["DUMP W", STEP])
        watched = [line[2:] for line in watches if line != "W NONE"]
        hits = {place: hit for hit in turn[1:] for place in watched if hit.startswith(f"HIT {place} ")}
        self.script.append(STEP)
        self.turn += 1
        before = list(map(self.console.number, watched))
        self.reply([self.look_at_words(number) if isinstance(device, CentralDevice) else self.look_at_channel(number)
                    for number, device in enumerate(self.devices)])
        for place, was, now in zip(watched, before, map(self.console.number, watched)):
            if was != now:
                hits[place] = f"HIT {place} {was} {now}"
        self.hits[-1] = next((hits[place] for place in watched if place in hits), None)

    def reply(self, replies):
        """Performs the replies of all devices: pairs of an address of central memory, or of a channel, and the end of a line."""
        for number, (device, those) in enumerate(zip(self.devices, replies)):
            for place, number_there in those:
                self.act(f"SET {'C' if isinstance(device, CentralDevice) else 'H'} {place} {number_there}")
            self.leave(number, those)

    def leave(self, number, replies):
        """Notes what a device has left: its own reply is no change for it."""
        device = self.devices[number]
        for place, left in replies:
            if not isinstance(device, CentralDevice):
                self.seen[number] = self.console.channel(device.channel)
            elif int(place, 8) in self.seen[number]:
                self.seen[number][int(place, 8)] = int(left, 8)

    def due(self, number):
        """Returns what is due of a device in this turn, in the order in which it was asked for."""
        due = [one for turn, one in self.asked[number] if turn <= self.turn]
        self.asked[number] = [(turn, one) for turn, one in self.asked[number] if turn > self.turn]
        return due

    # ---- a device of a channel

    def look_at_channel(self, number):
        now = self.console.channel(self.devices[number].channel)
        if now != self.seen[number]:
            kind = METHODS.get(now[0]) or ("activated" if self.seen[number][0] == "I" else "taken")
            self.seen[number] = now
            return self.call(number, kind, int(now[2:], 8))
        return self.call(number, "due", int(now[2:], 8)) if self.due(number) else []

    def call(self, number, kind, word):
        """Calls a method of a device of a channel. Returns its reply."""
        device = self.devices[number]
        self.states[number], reply = getattr(device, kind)(self.states[number], Event(kind, word, self.turn))
        if reply.wake is not None:
            self.asked[number] = [(self.turn + reply.wake, "due")]
        return ([] if reply.state is None
                else [(f"{device.channel:02o}", reply.state + ("" if reply.word is None else f" {reply.word:o}"))])

    # ---- a device of central memory

    def look_at_words(self, number):
        """Returns what a device stores after a turn: first what is due, then what it asks for now."""
        due, new = [], []
        for one in self.due(number):
            due += self.call_central(number, "due", 0, 0, 0) if one.address is None else [self.line(one)]
        for address, was in sorted(self.seen[number].items()):
            now = self.seen[number][address] = self.word(address)
            if now != was:
                new += self.call_central(number, "changed", address, was, now)
        return self.in_order(due, new)

    def in_order(self, due, new):
        return [*due, *new]

    def call_central(self, number, kind, address, was, now):
        """Calls a method of a device of central memory. Returns what it stores at once."""
        event = Change(kind, address, was, now, self.turn, self.word,
                       lambda number: int(self.console.frame()[number].split()[2], 8))
        self.states[number], stores = getattr(self.devices[number], kind)(self.states[number], event)
        stores = [stores] if isinstance(stores, Store) else list(stores)
        self.asked[number] += [(self.turn + one.after, one) for one in stores if one.after]
        return [self.line(one) for one in stores if not one.after]

    def word(self, address):
        return int(self.console.central(address, address)[0].split()[2], 8)

    @staticmethod
    def line(one):
        return f"{one.address:o}", f"{one.word:o}"


class RandomDevice(Device):
    """A device whose replies are chosen by its state and the event, the likely one most often. If it does nothing, it does
    something later, so it does not hang."""

    def __init__(self, seed, channel):
        self.seed, self.channel, self.start = seed, channel, (seed, 0)

    def react(self, state, event):
        number, count = state
        number = (number * 5 + (event.word or 0) + event.turn + len(event.kind)) % 8191
        words = full(number % 4096), full(event.turn % 4096)
        likely = {"function": INACTIVE, "word": EMPTY, "activated": words[0], "taken": words[1], "due": words[0], "told": NOTHING}
        reply = likely.get(event.kind, NOTHING)
        choice = (number // 3 + self.seed) % 16
        if choice == 0:
            reply = (INACTIVE, EMPTY, NOTHING, words[1])[number % 4]
        if choice in (1, 2) and event.kind != "due":
            reply = NOTHING
        return (number, count + 1), reply.waking(number % 40 + 1) if reply.state is None or choice in (3, 4) else reply

    function = word = activated = taken = disconnected = due = told = react


def random_program(choose, channels, is_rescue, codes=range(4)):
    """Returns the words of a loop from cell 0100 on. It looks at a channel before it uses it, so it seldom waits; one that rescues
    disconnects channels, so that others do not wait for ever."""
    words = []
    for at in range(choose.randint(3, 8)):
        c, here = channels[at % len(channels)], 0o100 + len(words)
        code = [0o7700 + c, choose.choice(codes)] if c != OTHER_CHANNEL else []
        begin = [0o6400 + c, here + len(code) + 3, *code, 0o7400 + c]
        use = begin if at < len(channels) else choose.choice((
            begin,
            [0o6500 + c, here + 5, 0o6700 + c, here + 5, 0o7000 + c], [0o6500 + c, here + 5, 0o6600 + c, here + 5, 0o7200 + c],
            [0o6500 + c, here + 5, 0o1400 + choose.randint(1, 9), 0o7100 + c, 0o300],
            [0o6500 + c, here + 5, 0o1400 + choose.randint(1, 9), 0o7300 + c, 0o100], [0o3420, 0o3620]))
        words += [0o6500 + c, here + 3, 0o7500 + c] if is_rescue else use
        words += [0o1400 + choose.randint(1, 8), 0o1701, 0o0576] if is_rescue or choose.random() < 0.1 else []
    return [*words, 0o0100, 0o100]


WORDS = range(0o10, 0o50)  # of central memory that processors, devices and the user change


class RandomCentralDevice(CentralDevice):
    """A device whose stores are chosen by its state and the event."""

    def __init__(self, seed, words):
        self.seed, self.words, self.start = seed, words, (seed, 0)

    def react(self, state, event):
        number, count = state
        word = event.new % 8191 + event.central(WORDS[number % len(WORDS)]) % 8191 + event.frame(number % 16) % 8191
        number = (number * 5 + word + event.turn + event.address) % 8191
        choice, at = (number // 3 + self.seed) % 8, WORDS[number % len(WORDS)]
        stores = [(), store(at, number), (store(at, number), store(at, number + 1)), store(self.words[0], 0, number % 50 + 1),
                  [store(self.words[-1], number, number % 7), wake(number % 30 + 1)], wake(number % 90 + 1),
                  (store(at, word, 3), store(at, number, 3), store(at, 5)), store(event.address or at, number << 40)][choice]
        return (number, count + 1), stores

    changed = due = told = react


def program_of_words(choose):
    """Returns the words of a loop from cell 0100 on that reads and writes central memory: AOD 50, LDC, CWD 50 in each round, and
    others."""
    words = [0o3650, 0o2000, choose.choice(WORDS), 0o6250]
    for _ in range(choose.randint(1, 6)):
        address, here = choose.choice(WORDS), 0o100 + len(words)
        words += choose.choice(([0o2000, address, 0o6250], [0o2000, address, 0o6050],
                                [0o1402, 0o3460, 0o2000, address, 0o6360, here], [0o1401, 0o3460, 0o2000, address, 0o6160, 0o50],
                                [0o2000, address & 0o20, 0o2600], [0o3652], [0o3650, 0o3651],
                                [0o1400 + choose.randint(1, 30), 0o1701, 0o0576], [0o1400, 0o3450]))
    return [*words, 0o0100, 0o100]


class FewStates(Attached):
    """A session that keeps few states, and works out the others anew."""

    exact_values, every_value = 5, 4


class Session:
    """A random session beside the units that are in effect by the words of the page."""

    codes = range(4)  # of functions

    def __init__(self, seed, panel, definition):
        self.choose, self.kind = random.Random(seed), definition
        choose = self.choose
        self.devices = self.random_devices(choose)
        self.channels = [*(device.channel for device in self.devices if device.channel is not None), OTHER_CHANNEL]
        self.words = [program(), "--panel", panel, "--history", str(choose.choice((1, 2, 7, 40, 300, 10000)))]
        self.session = choose.choice((Attached, FewStates))(self.words, self.devices)
        self.units, self.position = [], 0  # in effect and ahead
        self.definition = definition(self.words[:3], self.devices)
        for at, number in enumerate(choose.sample(range(10), choose.choice((2, 4, 10)))):
            for line in set_lines(number, 0o100, [f"{word:04o}" for word in self.program(at == 0)]):
                self.act(line)
            self.act(f"SET P {number:o} 100")

    @staticmethod
    def random_devices(choose):
        """Returns devices, each on a channel of its own."""
        return [RandomDevice(choose.randrange(4000), channel)
                for channel in choose.sample([0, 1, 5, 0o11, 0o10], choose.randint(1, 3))]

    def program(self, is_rescue):
        return random_program(self.choose, self.channels, is_rescue, self.codes)

    def close(self):
        self.session.close()
        self.definition.console.close()

    def defined(self, units):
        """Returns the definition of the session with these units in effect. It goes on from the last one if that has the first of
        them."""
        if units[:len(self.definition.units)] != self.definition.units:
            self.definition.console.close()
            self.definition = self.kind(self.words[:3], self.devices)
        for unit in units[len(self.definition.units):]:
            self.definition.perform(unit)
        return self.definition

    def act(self, line):
        """Performs an action in the session. A watch may be refused."""
        answer = self.session.act(line)
        assert answer == ["OK"] or "WATCH" in line, (line, answer)
        if answer == ["OK"]:
            self.add(line)

    def add(self, unit, times=1):
        self.units[self.position:] = [unit] * times
        self.position += times

    def move(self):
        """Makes one random move. Returns what it did, to be compared."""
        choose, most = self.choose, self.choose.choice((3, 30, 300, 600))
        moves = {"step": 40, "back": 15, "forward": 12, "back w": 6, "set": 16, "watch": 8, "dead start": 2, "tell": 10,
                 "refused": 3}
        name = choose.choices(list(moves), list(moves.values()))[0]
        return name, getattr(self, name.replace(" ", "_"))(most)

    def step(self, most):
        answer = self.session.act(f"STEP {self.choose.randint(1, most):o}")
        turns = int(answer[0].split()[1], 8)
        self.add(STEP, turns)
        return turns, answer[1:]

    def back(self, most):
        count = self.choose.randint(1, max(min(most, self.position), 1))
        return self.go("BACK", count, -count, f"BACK {count:o} SLOT" if count <= self.position else "ERR 07 TOO FEW KEPT")

    def forward(self, most):
        ahead = len(self.units) - self.position
        count = self.choose.randint(1, max(min(most, ahead), 1))
        return self.go("FORWARD", count, count, f"FORWARD {count:o} SLOT" if count <= ahead else "ERR 16 TOO FEW AHEAD")

    def go(self, word, count, move, wanted):
        """Goes back or forward by so many units, if the answer begins as it should."""
        answer = self.session.act(f"{word} {count:o}")
        assert answer[0].startswith(wanted) and len(answer) == 1, (answer, wanted)
        self.position += 0 if wanted.startswith("ERR") else move
        return answer[0].split()[3] if answer[0].startswith(word) else None

    def back_w(self, _):
        before, oldest = self.units[:self.position], self.session.oldest
        answer = self.session.act("BACK W")
        count = int(answer[0].split()[1], 8) if answer[0].startswith("BACK") else 0
        self.position -= count
        return before, oldest, answer, count

    def set(self, _):
        choose, n, channel = self.choose, self.choose.randrange(10), self.choose.choice(self.channels)
        word, place = choose.randrange(4096), int(self.session.registers(n)["P"], 8) + choose.randint(1, 4)
        self.act(choose.choice((
            f"SET H {channel:o} {choose.choice('IEF')} {word:o}", f"SET A {n:o} 3", f"SET P {n:o} 100", f"SET M {n:o} 300 {word:o}",
            f"SET M {n:o} {place % 4096:o} {choose.choice((0o74, 0o75, 0o76)):o}{channel:02o}")))

    def refused(self, _):
        channel = self.choose.choice(self.channels)
        answer = self.session.act(
            self.choose.choice((f"SET H {channel:o} F 10000", "SET H 14 I", "GO", "BACK X", f"SET H {channel:o}")))
        assert answer[0].startswith("ERR "), answer

    def watch(self, _):
        places = [*(f"H {channel:o}" for channel in self.channels), "H 14", "A 0", f"P {self.choose.randrange(10):o}"]
        place = self.choose.choice(places)
        self.act(f"{self.choose.choice(('WATCH', 'UNWATCH'))} {place}")

    def dead_start(self, _):
        self.act("DEADSTART")

    def tell(self, _):
        for _ in range(self.choose.randint(1, 6)):
            number, what = self.choose.randrange(len(self.devices)), self.choose.randrange(4000)
            self.session.tell(number, what)
            self.add((number, what))


class TwoOnAChannel(Session):
    """One with a reader and a printer behind one controller."""

    codes = (0o4000, 0o4000, 0o5000, 0o5000, 0o6000, 0o1000, 0o1100, 0o1200, 0o1300, 0o1400, 0o1500, 0o1600, 0o1700, 0, 1, 2, 4,
             0o77)

    @staticmethod
    def random_devices(choose):
        deck = [[choose.randrange(4096) for _ in range(choose.randint(0, 80))] for _ in range(choose.randint(0, 3))]
        busy = [choose.choice((0, 1, 5, 40)) for _ in range(2)]
        return [Controller(CardReader(deck, busy=busy[0]), LinePrinter(busy=busy[1]), channel=choose.choice((5, 0o11)))]


class OfCentralMemory(Session):
    """One with one or two devices of central memory, and perhaps one of a channel."""

    @staticmethod
    def random_devices(choose):
        words = [choose.choice((range(0o10, 0o20), [0o11], [0o15, 0o12, 0o33], range(0o20, 0o40), range(0o10, 0o50, 3)))
                 for _ in range(choose.choice((1, 1, 2)))]
        found = [RandomCentralDevice(choose.randrange(4000), list(those)) for those in words]
        if choose.random() < 0.3:
            found.insert(choose.randrange(len(found) + 1), RandomDevice(choose.randrange(4000), 5))
        return found

    def program(self, is_rescue):
        return super().program(is_rescue) if self.choose.random() < 0.2 else program_of_words(self.choose)

    def set(self, most):
        if self.choose.random() < 0.5:
            self.act(f"SET C {self.choose.choice(WORDS):o} {self.choose.randrange(1 << 60):o}")
        else:
            super().set(most)

    def watch(self, most):
        if self.choose.random() < 0.6:
            self.act(f"{self.choose.choice(('WATCH', 'UNWATCH'))} C {self.choose.choice(WORDS):o}")
        else:
            super().watch(most)


def difference(session, move):
    """Returns how a session differs from its definition after a move; None if it does not."""
    name, result = move
    if name == "back w" and (fault := fault_of_back_w(session, *result)):
        return fault
    defined, now = session.defined(session.units[:session.position]), session.session
    if name == "step":
        turns, hit = result
        hits = defined.hits[session.position - turns:session.position]
        if any(hits[:-1]) or [hits[-1]] * bool(hits[-1]) != hit:
            return f"HIT {hits}, and not {hit}"
    if name in ("back", "forward") and result not in (None, f"{defined.console.slot():02o}"):
        return f"slot {result}, and not {defined.console.slot():02o}"
    states = [now.state(number) for number in range(len(session.devices))]
    if (states, now.turn, now.unit) != (defined.states, defined.turn, session.position):
        return f"the states are {states}, and not {defined.states}; turn {now.turn:o}, {defined.turn:o}"
    if [action.line for action in now.tape.actions(0, now.position) for _ in range(action.times)] != defined.script:
        return "the tape has other actions"
    for line, answer, wanted in zip(DUMPS, now.ask_each(DUMPS), defined.console.ask_each(DUMPS)):
        if answer != wanted:
            return f"{line}: {answer}, and not {wanted}"
    return fault_of_counts(session) or fault_of_scripts(session, defined)


def fault_of_back_w(session, units, oldest, answer, count):
    """Returns what is wrong in the answer to BACK W before which these units were in effect."""
    defined = session.defined(units)
    wanted = defined.console.ask("BACK W")
    if not wanted[0].startswith("BACK"):
        return None if answer == wanted else f"BACK W: {answer}, and not {wanted}"
    back = wanted[0].split()[1]
    defined.console.demand(f"FORWARD {back}")
    place = defined.positions[-1] - int(back, 8)
    if answer == ["ERR 10 NO CHANGE KEPT"]:
        return None if place < oldest else f"BACK W: {answer}, and the change is kept"
    goal = max(unit for unit, position in enumerate(defined.positions) if position <= place)
    return None if len(units) - count == goal else f"BACK W: to {len(units) - count}, and not {goal}"


def fault_of_scripts(session, defined):
    """Returns what is wrong in the saved script, or in what was sent: alone each must make the same machine, the first one in as
    many turns."""
    saved, sent = session.session.save(), session.session.sent
    for words, lines in ((session.words[:3], saved), (session.words, sent)):
        console = Console(words)
        answers = list(itertools.chain.from_iterable(console.ask_each(lines)))
        wrong = next((line for line in DUMPS if console.ask(line) != defined.console.ask(line)), None)
        console.close()
        turns = sum(int(answer.split()[1], 8) for answer in answers if answer.startswith("TURNS "))
        refused = [answer for answer in answers if answer.startswith("ERR ")]
        if wrong or refused or lines is saved and turns != defined.turn:
            return f"the script has {wrong or refused}, and {turns} turns"
    return None


def fault_of_counts(session):
    """Returns what is wrong in the counts of units."""
    counts, units, here = session.session, session.units, session.position
    if (counts.unit, counts.to_redo) != (here, len(units) - here):
        return f"{counts.unit} units and {counts.to_redo} ahead, and not {here} and {len(units) - here}"
    for name, some in (("back_over", units[:here][::-1]), ("forward_over", units[here:])):
        ends = [0, *(number for number, unit in enumerate(some, 1) if unit == STEP)]
        for turns in {0, 1, len(ends) // 2, len(ends) - 1} & set(range(len(ends))):
            if getattr(counts, name)(turns) != ends[turns]:
                return f"{name} {turns}: {getattr(counts, name)(turns)}, and not {ends[turns]}"
    return None


def first_difference(seed, panel, moves=40, definition=Definition, kind=Session):
    """Returns the first difference of a random session from a definition; None if there is none."""
    session = kind(seed, panel, definition)
    try:
        for number in range(moves):
            move = session.move()
            if session.choose.random() < 0.2 or number == moves - 1:
                if fault := difference(session, move):
                    return f"seed {seed}, move {number}, {move[0]}: {fault}"[:2000]
        return None
    finally:
        session.close()
