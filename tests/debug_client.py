"""A client of the debug adapter for tests: requests over pipes, and what comes back; and a test case whose messages are checked."""

import contextlib
import functools
import glob
import json
import os
import queue
import shutil
import signal
import subprocess
import tempfile
import threading

from tests.fixtures import DECK
from tests.support import PATIENCE, PYTHON, TOP, Case, lasting_room, program, read

from pp6600.front.debug.adapter import Adapter
from pp6600.front.debug.protocol import Wire, opened

ADAPTER = os.path.join(TOP, "tools", "debug-adapter")

LOADER = [line for line in read("examples", "overwritten-loader", "script").splitlines() if not line.startswith("*")][:4]
SCOPES = {name: number << 8 for number, name in enumerate(("registers", "channels", "devices", "watches", "history", "calls"), 1)}
GO = "/usr/share/gocode/src/github.com/google/go-dap"
HAS_GO = os.path.isdir(GO) and shutil.which("go") is not None


class Refusal(Exception):
    """A request that was refused, with its message."""


def heed_signals():
    """Lets a process be ended by signals that were ignored where the tests were started, as in the background."""
    for number in (signal.SIGHUP, signal.SIGINT):
        signal.signal(number, signal.SIG_DFL)


class Client:
    """An adapter at the other end of pipes."""

    def __init__(self, *words, environment=None, before=(), folder=TOP):
        """Starts an adapter; other words may come before its name."""
        self.begin()
        self.process, self.held = subprocess.Popen(
            [*PYTHON, *before, ADAPTER, *words], stdin=subprocess.PIPE, cwd=folder, stdout=subprocess.PIPE, stderr=subprocess.PIPE,
            preexec_fn=heed_signals, env={**os.environ, "PP6600": program(), **(environment or {})}), b""
        self.listener = threading.Thread(target=self.listen, daemon=True)
        self.listener.start()

    def begin(self):
        self.seq, self.ended, self.messages, self.events = 0, None, queue.Queue(), []
        self.shown = []  # to the user, so far

    def listen(self):
        while header := self.process.stdout.readline():
            length = int(header.split(b":")[1])
            self.process.stdout.readline()
            self.messages.put(json.loads(self.process.stdout.read(length)))
        self.messages.put(None)

    def message(self):
        """Returns the next message; None at the end."""
        message = self.messages.get(timeout=PATIENCE)
        if message and message["type"] == "event":
            self.events.append(message)
            self.shown += [message["body"]["output"]] if message["event"] == "output" else []
        return message

    def send(self, command, is_held=False, **arguments):
        """Sends a request, and returns its number. One that is held is sent at once with the next one."""
        self.seq += 1
        self.write(json.dumps({"seq": self.seq, "type": "request", "command": command, "arguments": arguments}).encode(), is_held)
        return self.seq

    def write(self, data, is_held=False):
        self.held += b"Content-Length: %d\r\n\r\n%s" % (len(data), data)
        if not is_held:
            self.process.stdin.write(self.held)
            self.process.stdin.flush()
            self.held = b""

    def answer(self, number):
        """Returns the body of the answer to a request."""
        while message := self.message():
            if message["type"] == "response" and message["request_seq"] == number:
                if not message["success"]:
                    raise Refusal(message["message"])
                return message.get("body")
        raise EOFError(self.said())

    def ask(self, command, **arguments):
        """Sends a request, and returns the body of the answer."""
        return self.answer(self.send(command, **arguments))

    def event(self, name):
        """Returns the body of the next event with this name; those before it are dropped."""
        while True:
            while self.events:
                event = self.events.pop(0)
                if event["event"] == name:
                    return event.get("body", {})
            if self.message() is None:
                raise EOFError(self.said())

    def launch(self, **arguments):
        """Begins a session. Returns the body of the first stop."""
        self.ask("initialize", adapterID="pp6600", linesStartAt1=True, columnsStartAt1=True)
        self.ask("launch", **arguments)
        self.event("initialized")
        self.ask("configurationDone")
        return self.event("stopped")

    def stop_after(self, command, **arguments):
        """Sends a request that runs the machine, and returns the body of the next stop."""
        self.ask(command, **arguments)
        return self.event("stopped")

    def typed(self, line, context="repl"):
        """Performs a line, and returns its answer. If it moves the machine, the stop is awaited."""
        result = self.ask("evaluate", expression=line, context=context)["result"]
        if result.rsplit("\n", 1)[-1].startswith(("BACK", "FORWARD", "TURNS", "HIT")) or line.startswith("SET"):
            self.stop = self.event("stopped")
        return result

    def listing(self, number=0):
        """Returns the path of the listing of a processor."""
        return self.ask("stackTrace", threadId=number + 1)["stackFrames"][0]["source"]["path"]

    def turns(self):
        """Returns how many turns are in effect, octal."""
        found = self.ask("variables", variablesReference=SCOPES["history"])["variables"]
        return next(one["value"] for one in found if one["name"] == "turns")

    def said(self):
        return self.process.stderr.read().decode()

    def end(self):
        """Ends the session, and returns the adapter's status and what it wrote to standard error."""
        if self.ended:
            return self.ended
        if self.process.poll() is None:
            try:
                self.send("disconnect")
            except (BrokenPipeError, ValueError):  # it has ended, or its input is closed
                pass
        status = self.process.wait(PATIENCE)
        self.listener.join(PATIENCE)
        said = self.said()
        for stream in (self.process.stdin, self.process.stdout, self.process.stderr):
            with contextlib.suppress(BrokenPipeError):  # what it has not read
                stream.close()
        self.ended = status, said
        return self.ended


class OwnWire(Wire):
    """What an adapter of this process writes, for its client."""

    def __init__(self, log, messages):
        self.seq, self.is_gone, self.requests, self.messages = 0, False, queue.Queue(), messages
        self.log, self.lock = opened(log) if log else None, threading.Lock()

    def write(self, **message):
        self.seq += 1
        made = json.loads(json.dumps({"seq": self.seq, **message}))
        self.note("<", made)
        self.messages.put(made)


class OwnClient(Client):
    """An adapter in this process, which does what is asked at once. The folder is that of the whole process."""

    def __init__(self, log=None, folder=TOP):
        self.begin()
        os.environ["PP6600"] = program()
        self.before, self.adapter = os.getcwd(), Adapter(OwnWire(log, self.messages))
        os.chdir(folder)

    def write(self, data, is_held=False):
        request = json.loads(data)
        self.adapter.wire.note(">", request)
        self.adapter.take(request)

    def message(self):
        if self.messages.empty():
            raise EOFError("nothing more has come")
        return super().message()

    def end(self):
        if not self.ended:
            self.send("disconnect")
            self.adapter.close()
            self.adapter.wire.log and self.adapter.wire.log.close()
            os.chdir(self.before)
            self.ended = 0, ""
        return self.ended


class DebugCase(Case):
    """Sessions, which end with the test. What is in them is written to a log, which go-dap reads where it is there."""

    @classmethod
    def setUpClass(cls):
        folder = tempfile.TemporaryDirectory(prefix="pp6600-test-")
        cls.addClassCleanup(folder.cleanup)
        cls.logs = [os.path.join(folder.name, f"log{number}") for number in range(200)]

    @classmethod
    def tearDownClass(cls):
        text = "".join(map(read, glob.glob(os.path.join(os.path.dirname(cls.logs[0]), "log*"))))
        messages = [json.loads(line[2:]) for line in text.splitlines() if line.startswith("<")]
        assert all(message["type"] in ("response", "event") for message in messages)
        if HAS_GO:
            check_by_go(text, len(messages))

    def client(self, *words, **how):
        return self.ending(Client("--log", self.logs.pop(0), *words, **how))

    def own_client(self, folder=TOP):
        return self.ending(OwnClient(self.logs.pop(0), folder))

    def ending(self, client):
        self.addCleanup(client.end)
        return client

    def script(self, lines):
        return self.file("".join(f"{line}\n" for line in lines).encode("latin-1"))

    def session(self, lines, **arguments):
        """Returns a client that has stopped after a script."""
        client = self.client()
        self.entry = client.launch(script=self.script(lines), **arguments)
        return client

    def loader(self, **arguments):
        return self.session(LOADER, deck=DECK, processor="0", **arguments)


@functools.lru_cache(maxsize=None)
def checker():
    """Returns a program with which go-dap decodes each message, unknown fields refused."""
    room = lasting_room()
    made = os.path.join(room, "check")
    env = {**os.environ, "GO111MODULE": "off", "GOPATH": "/usr/share/gocode", "GOCACHE": os.path.join(room, "cache"),
           "GOFLAGS": "-p=1"}
    subprocess.run(["go", "build", "-o", made, os.path.join(TOP, "tests", "debug", "check.go")], env=env, check=True)
    return made


def check_by_go(text, count):
    done = subprocess.run([checker()], input=text.encode(), stdout=subprocess.PIPE, stderr=subprocess.STDOUT, check=False)
    assert done.stdout.decode() == f"{count}\n", done.stdout.decode()
