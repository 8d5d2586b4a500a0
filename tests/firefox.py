"""A headless Firefox, driven by its protocol Marionette. What it evaluates sees the document and its window."""

import itertools
import json
import os
import shutil
import socket
import subprocess
import tempfile
import time

from tests.browser import PATIENCE, Page

NAMES = ("firefox-esr", "firefox")
# as the protocol names them
KEYS = {"ArrowLeft": "\ue012", "ArrowRight": "\ue014", "End": "\ue010", "Home": "\ue011", "Enter": "\ue007"}


def found():
    """Returns the path of Firefox, or None."""
    return next(filter(None, map(shutil.which, NAMES)), None)


def free_port():
    with socket.create_server(("127.0.0.1", 0)) as one:
        return one.getsockname()[1]


class Firefox(Page):
    """A browser with one page."""

    def __init__(self, path):
        self.room, port = tempfile.TemporaryDirectory(), free_port()
        with open(os.path.join(self.room.name, "user.js"), "w", encoding="ascii") as file:
            file.write(f'user_pref("marionette.port", {port});\nuser_pref("app.update.enabled", false);\n'
                       'user_pref("datareporting.policy.dataSubmissionEnabled", false);\n'
                       'user_pref("network.captive-portal-service.enabled", false);\n')
        words = [path, "--headless", "--marionette", "--no-remote", "--profile", self.room.name, "about:blank"]
        self.process = subprocess.Popen(words, stdout=subprocess.DEVNULL, stderr=subprocess.DEVNULL,
                                        env={**os.environ, "HOME": self.room.name})
        self.numbers, self.rest = itertools.count(1), b""
        self.socket = self.connected(port)
        self.message()
        self.ask("WebDriver:NewSession")

    def connected(self, port):
        end = time.monotonic() + PATIENCE
        while True:
            try:
                return socket.create_connection(("127.0.0.1", port), PATIENCE)
            except OSError:
                if time.monotonic() > end or self.process.poll() is not None:
                    raise
                time.sleep(0.1)

    def message(self):
        """Returns the next message of the browser."""
        while b":" not in self.rest or len(self.rest) < sum(self.lengths()):
            data = self.socket.recv(1 << 16)
            if not data:
                raise EOFError("the browser has ended")
            self.rest += data
        start, length = self.lengths()
        text, self.rest = self.rest[start:start + length], self.rest[start + length:]
        return json.loads(text)

    def lengths(self):
        """Returns the lengths of the head of a message, and of the message."""
        head = self.rest.split(b":", 1)[0]
        return len(head) + 1, int(head)

    def ask(self, command, **parameters):
        text = json.dumps([0, next(self.numbers), command, parameters])
        self.socket.sendall(f"{len(text)}:{text}".encode())
        _, _, error, result = self.message()
        if error:
            raise RuntimeError(f"{command}: {error['message']}")
        return result

    def open(self, path, address=""):
        """Opens a film from its file, and waits until it is shown."""
        self.ask("WebDriver:Navigate", url="about:blank")
        self.ask("WebDriver:Navigate", url=f"file://{os.path.abspath(path)}{address}")
        self.wait_for("document.body && document.body.dataset.open === 'yes'")

    def evaluate(self, text):
        """Returns the value of an expression of the document, or what a promise brings."""
        return self.ask("WebDriver:ExecuteScript", script=f"return {text};", args=[])["value"]

    def key(self, key):
        """Presses a key."""
        presses = [{"type": kind, "value": KEYS.get(key, key)} for kind in ("keyDown", "keyUp")]
        self.ask("WebDriver:PerformActions", actions=[{"type": "key", "id": "keys", "actions": presses}])

    def end(self):
        self.socket.close()
        self.process.terminate()
        self.finish(20)
