"""Dialogues with the debug adapter, as tests/debug/*.txt has them. A case is what it shows, after a #, then a request on each line
with its answer after a |. More lines after a | are what is said to the user meanwhile.

    python3 -m tests.debug_dialogue FILE ..   writes each file with the answers that its requests get; read them

A request has its name in the protocol, as stepBack, and arguments as NAME=TEXT or NAME:=JSON; SHOWN and Dialogue have the others.
Files are named from a folder with those of tests/debug and with examples/. There are these, with turns that are counted by hand:

    loops       PP 00 counts in cell 0020, PP 03 in cell 0021, in loops of three and of two turns
    long        PP 00 counts cell 0021 down from 100, and for each of these counts cell 0020 down to 0 by 4095 (decimal) rounds of
                two turns. So it comes to 0104 after 64 * 8192 turns of its own, decimal
    loader      the overwritten loader of examples, up to its first question; loader3 has no STEP
    counts.pp   a turn of PP 00 is every tenth (decimal), so before its turn number n, from 1, there are 10 * (n - 1) turns
"""

import base64
import glob
import json
import os
import re
import shlex
import shutil
import subprocess
import sys
import tempfile

from tests import debug_client
from tests.debug_client import SCOPES, Client, Refusal
from tests.support import TOP, read, write

FOLDER = os.path.join(TOP, "tests", "debug")
WIDTH = 132  # of a line
STEPS = ("continue", "reverseContinue", "next", "stepIn", "stepOut", "stepBack")


def arguments_of(words):
    """Returns what words give by name, as a=text, a:=json and a.b=text for an object in an object."""
    found = {}
    for word in words:
        names, mark, text = re.fullmatch(r"([\w.]+)(:?=)(.*)", word, flags=re.S).groups()
        *outer, name = names.split(".", 1) if mark == "=" else [names]
        (found.setdefault(outer[0], {}) if outer else found)[name] = text if mark == "=" else json.loads(text)
    return found


def is_argument(word):
    return re.match(r"[A-Za-z_][\w.]*:?=", word) is not None


def reference(scope):
    """Returns the number of a scope, as registers, or registers3 of PP 03."""
    name, number = re.fullmatch("([a-z]+)([0-7]*)", scope).groups()
    return SCOPES[name] + int(number or "0", 8)


def points(rest, make):
    """Returns what asks for breakpoints: a word is the place of one, and arguments are of the one before them."""
    asked = []
    for word in shlex.split(rest):
        if is_argument(word):
            asked[-1].update(arguments_of([word]))
        else:
            asked.append(make(word))
    return {"breakpoints": asked}


def set_points(body):
    return listed(body["breakpoints"], lambda one: (f"{one['id']}" if one["verified"] else "none")
                  + (f" at {one['line']}" if "line" in one else "") + (f": {one['message']}" if not one["verified"] else ""))


def listed(some, shown):
    return ", ".join(map(shown, some))


def bytes_to_write(reference, data, *offset):
    """Returns the arguments of a request that writes bytes, which are hexadecimal, at an offset if there is one."""
    text = base64.b64encode(bytes.fromhex(data)).decode()
    return {"memoryReference": reference, "data": text, **({"offset": int(offset[0])} if offset else {})}


# Requests that are asked and shown in one way each: the name in the protocol, the arguments of what follows, what is shown of the
# answer.
SHOWN = {
    "watch": ("setDataBreakpoints", lambda rest: points(rest, lambda word: {"dataId": word, "accessType": "write"}), set_points),
    "instructions": ("setInstructionBreakpoints",
                     lambda rest: points(rest, lambda word: {"instructionReference": word}), set_points),
    "look": ("evaluate", lambda text: {"expression": text, "frameId": 1, "context": "hover"}, lambda body: body["result"]),
    "frames": ("stackTrace", lambda number: {"threadId": int(number or "0", 8) + 1}, lambda body: listed(
        body["stackFrames"], lambda frame: f"{frame['name']} in {frame['source']['name']}:{frame['line']}")),
    "show": ("variables", lambda scope: {"variablesReference": reference(scope)}, lambda body: listed(
        body["variables"], lambda one: f"{one['name']} {one['value']}")),
    "threads": ("threads", lambda _: {}, lambda body: listed(body["threads"], lambda thread: f"{thread['id']} {thread['name']}")),
    "scopes": ("scopes", lambda frame: {"frameId": int(frame)}, lambda body: listed(body["scopes"], lambda scope: scope["name"])),
    "set": ("setVariable", lambda rest: dict(zip(("variablesReference", "name", "value"), (
        reference(rest.split()[0]), *shlex.split(rest)[1:]))), lambda body: body["value"]),
    "read": ("readMemory", lambda rest: {"memoryReference": rest.split()[0], "count": int(rest.split()[1])},
             lambda body: f"{base64.b64decode(body['data']).hex()}, {body['unreadableBytes']} unreadable"),
    "write": ("writeMemory", lambda rest: bytes_to_write(*rest.split()), lambda body: f"{body['bytesWritten']} written"),
    "disassemble": ("disassemble", lambda rest: dict(zip(("memoryReference", "instructionOffset", "instructionCount"), (
        rest.split()[0], *map(int, rest.split()[1:])))), lambda body: listed(
            body["instructions"], lambda one: one["instruction"] + (
                f" in {one['location']['name']}:{one['line']}" if "location" in one else "")))}


class Dialogue:
    """A session, by requests in a folder."""

    def __init__(self, client, folder, requests):
        self.client, self.folder, self.coming = client, folder, [request for request, _ in requests]
        self.is_begun, self.listings = False, {}  # the paths of those that have been asked for
        shutil.copytree(FOLDER, folder, dirs_exist_ok=True)
        os.symlink(os.path.join(TOP, "examples"), os.path.join(folder, "examples"))

    def answers(self, line):
        """Performs the next request, and returns the lines of its answer."""
        self.coming.remove(line)
        try:
            answer = self.answer(line, *line.partition(" ")[::2])
        except Refusal as refusal:
            answer = f"refused: {refusal}"
        answer = re.sub("(is not base64): .*", r"\1: ..", answer or "")  # what Python says
        said = [text for text in self.client.shown if not answer.endswith(f": {text.strip()}")]  # a stop is said too
        self.client.shown.clear()
        text = "\n".join([answer, *(f"says: {line}" for line in "".join(said).splitlines())])
        text = re.sub(f"{re.escape(self.folder)}/?|{tempfile.gettempdir()}/pp6600-[^/]*/", "", text)
        return [line.rstrip() for line in text.split("\n")]

    def answer(self, line, name, rest):
        """Performs a request, and returns its answer: an own one, one of the table, or that of the protocol as it is."""
        own = getattr(self, f"do_{name}", None)
        if line.startswith("!"):
            return subprocess.run(["bash", "-c", line[1:]], cwd=self.folder, check=True).stdout
        if name.isdigit():
            return self.repeated(int(name), rest)
        if name in STEPS:
            return self.after_step(name, *shlex.split(rest))
        if own:
            return own(rest)
        if name in SHOWN:
            command, arguments, shown = SHOWN[name]
            return shown(self.client.ask(command, **arguments(rest)))
        return self.do_ask(line)

    def do_ask(self, rest):
        """ask NAME [ARGUMENT ..]: also what has a command here."""
        name, *words = shlex.split(rest)
        return json.dumps(self.client.ask(name, **arguments_of(words)))

    # ---- the beginning and the end

    def do_initialize(self, rest):
        self.client.ask("initialize", **arguments_of(shlex.split(rest)))
        self.is_begun = True

    def do_launch(self, rest):
        """launch [FILE or LINE ..] [NAME=VALUE ..]: a script of these files and lines. The answer is the first stop."""
        self.do_prepare(rest)
        return self.do_begin("")

    def do_prepare(self, rest):
        """As launch, up to the event after which breakpoints are set."""
        words = shlex.split(rest)
        names = [word for word in words if not is_argument(word)]
        parts = [read(FOLDER, name) if os.path.exists(os.path.join(FOLDER, name)) else f"{name}\n" for name in names]
        if parts:
            write(os.path.join(self.folder, "script"), "".join(parts).encode("latin-1"))
        if not self.is_begun:
            self.do_initialize("adapterID=pp6600")
        self.client.ask("launch", **{**({"script": "script"} if parts else {}), **arguments_of(filter(is_argument, words))})
        self.client.event("initialized")

    def do_begin(self, _):
        self.client.ask("configurationDone")
        return self.do_stop("")

    def do_restart(self, _):
        self.client.ask("restart")
        return self.do_stop("")

    def do_end(self, _):
        status, said = self.client.end()
        return f"status {status} {said}".rstrip()

    # ---- going

    def do_stop(self, _):
        """Waits for the next stop."""
        self.stop = stop = self.client.event("stopped")
        hits = " ".join(map(str, stop.get("hitBreakpointIds", ())))
        text = f"{stop['reason']} {hits}".rstrip() + (f": {stop['text']}" if "text" in stop else "")
        return f"{self.where()}, {text}"

    def do_stopped(self, _):
        """Waits for the next stop, of a run that ends where it happens to be."""
        stop = self.client.event("stopped")
        return f"PP {stop['threadId'] - 1:02o} {stop['reason']}" + (f": {stop['text']}" if "text" in stop else "")

    def where(self):
        """Returns the turns, the processor that stopped, and its place."""
        frame = self.client.ask("stackTrace", threadId=self.stop["threadId"])["stackFrames"][0]
        return f"TURN {self.client.turns()} PP {self.stop['threadId'] - 1:02o} {frame['source']['name']}:{frame['line']}"

    def after_step(self, name, *words):
        """NAME [PROCESSOR] [ARGUMENT ..]: goes, and returns the stop."""
        self.do_start(shlex.join([name, *words]))
        return self.do_stop("")

    def do_start(self, rest):
        """start NAME [PROCESSOR] [ARGUMENT ..]: goes, and does not wait for the stop. A pause after it comes before the first
        turn."""
        name, *words = shlex.split(rest)
        number = int(words.pop(0), 8) if words and words[0].isdigit() else 0
        going = {"threadId": number + 1, **arguments_of(words)}
        if self.coming and self.coming[0].startswith("pause"):
            self.client.send(name, is_held=True, **going)
        else:
            self.client.ask(name, **going)

    def repeated(self, count, rest):
        """COUNT NAME ..: goes so many times, and returns where it came each time."""
        found = []
        for _ in range(count):
            self.after_step(*shlex.split(rest))
            found.append(re.sub(r"TURN (\d+) PP \d+", r"\1", self.where()))
        self.client.shown.clear()  # why it stopped each time
        shorter = [one.replace(before.partition(":")[0].partition(" ")[2], "") for before, one in zip(found, found[1:])]
        return "TURN " + ", ".join([*found[:1], *shorter])

    def do_goto(self, rest):
        """goto [PROCESSOR]: goes to the target that was found last."""
        self.client.ask("goto", threadId=int(rest or "0", 8) + 1, targetId=self.target["id"])
        return self.do_stop("")

    def do_await(self, rest):
        """await EVENT: waits for an event."""
        return json.dumps(self.client.event(rest))

    def do_waiting(self, _):
        """Returns the events that have come and were not awaited."""
        self.client.ask("threads")
        return ", ".join(event["event"] for event in self.client.events)

    # ---- lines

    def do_type(self, rest):
        """type LINE: performs it, and returns what is answered, and the stop if it is more than a step."""
        self.client.stop = {"reason": "step"}
        answer = self.client.typed(rest).replace("\n", " ; ")
        return answer + (f", {self.client.stop['reason']}" if self.client.stop["reason"] != "step" else "")

    def listing(self, number):
        """Returns the path of the listing of a processor, as it was when it was first asked for."""
        if number not in self.listings:
            self.listings[number] = self.client.listing(int(number, 8))
        return self.listings[number]

    def do_cells(self, rest):
        """cells PROCESSOR [CELL ..]: breakpoints at lines of its listing."""
        number, _, rest = rest.partition(" ")
        return self.set_lines({"path": self.listing(number)}, points(rest, lambda word: {"line": int(word, 8) + 1}))

    def do_lines(self, rest):
        """lines FILE [LINE ..]: breakpoints at lines of a source."""
        name, _, rest = rest.partition(" ")
        return self.set_lines({"path": os.path.join(self.folder, name), "name": name},
                              points(rest, lambda word: {"line": int(word)}))

    def set_lines(self, source, asked):
        return set_points(self.client.ask("setBreakpoints", source=source, **asked))

    def do_list(self, rest):
        """list FIRST LAST: these cells of PP 00 in its listing."""
        first, last = (int(word, 8) for word in rest.split())
        lines = self.client.ask("source", sourceReference=1)["content"].splitlines()
        return "\n".join(" ".join(line.split()) for line in lines[first:last + 1])

    def do_targets(self, rest):
        """targets FILE LINE: where one may go to there. Keeps the last one."""
        name, line = rest.split()
        path = self.client.listing() if name.endswith(".pplist") else os.path.join(self.folder, name)
        targets = self.client.ask("gotoTargets", source={"path": path}, line=int(line))["targets"]
        self.target = targets[-1] if targets else None
        return ", ".join(target["label"] for target in targets)


def cases(path):
    """Returns the cases of a file: the line of each with what it shows, and its requests, each with the lines of its answer."""
    found = []
    for line in read(path).splitlines():
        if line.startswith("#"):
            found.append((line, []))
        elif line.startswith("|"):
            answer = found[-1][1][-1][1]
            answer[:] = [*filter(None, answer), line[1:].strip()]
        elif line:
            request, _, answer = (line, "", "") if line.startswith("!") else line.partition(" | ")
            found[-1][1].append((request.strip(), [answer.strip()]))
    return found


def files():
    """Returns the files of dialogues."""
    return sorted(glob.glob(os.path.join(FOLDER, "*.txt")))


def text_of(request, answers):
    """Returns a request and the lines of its answer as a file has them."""
    answer, *more = answers
    line = f"{request:31} | {answer}".rstrip(" |")
    lines = [line, *more] if len(line) <= WIDTH or not answer else [request, *answers]
    return "\n| ".join(lines) + "\n"


def record(path):
    """Writes a file with the answers that its requests get."""
    texts = []
    for shows, requests in cases(path):
        with tempfile.TemporaryDirectory(prefix="pp6600-test-") as folder:
            client = Client(folder=folder)
            dialogue = Dialogue(client, folder, requests)
            texts.append("\n".join([shows, "".join(text_of(request, dialogue.answers(request)) for request, _ in requests)]))
            client.end()
    with open(path, "w", encoding="utf-8") as file:
        file.write("\n".join(texts))


if __name__ == "__main__":
    debug_client.PATIENCE = 60
    for name in sys.argv[1:]:
        record(name)
