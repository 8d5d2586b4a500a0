"""A terminal for tests: a program in a window of tmux, and what its screen shows. Without tmux such a test is skipped."""

import atexit
import os
import re
import shutil
import signal
import subprocess
import tempfile
import time

from tests.support import write

PATIENCE = 300  # seconds; a program that works takes a few, and more where the machine is busy
OPTIONS = ("set -g status off\nset -g remain-on-exit on\nset -g remain-on-exit-format ''\nset -s escape-time 0\nset -s exit-empty "
           "off\n")
IS_HERE = shutil.which("tmux") is not None


class Terminal:
    """A program in a terminal of the kind of a name in terminfo."""

    def __init__(self, words, columns=80, rows=24, kind="xterm", environment=None, folder="."):
        self.room = tempfile.TemporaryDirectory(prefix="pp6600-test-")
        atexit.register(self.close)  # an interrupt leaves no program behind
        self.socket = os.path.join(self.room.name, "socket")
        options, given = write(f"{self.socket}.options", OPTIONS), {"LC_ALL": "C.UTF-8", "TERM": kind, **(environment or {})}
        # it ends with the tests, whatever ends them
        self.server = subprocess.Popen(["tmux", "-D", "-u", "-S", self.socket, "-f", options])
        while not os.path.exists(self.socket) and self.server.poll() is None:
            time.sleep(0.01)
        self.tmux("new-session", "-d", "-x", f"{columns}", "-y", f"{rows}", "-c", folder,
                  "env", *(f"{name}={value}" for name, value in given.items()), *words)
        self.pid = int(self.said("#{pane_pid}"))

    def tmux(self, *words):
        """Performs a command of tmux, and returns what it writes."""
        begin, environment = ["tmux", "-u", "-S", self.socket], {**os.environ, "LC_ALL": "C.UTF-8"}
        return subprocess.run([*begin, *words], env=environment, capture_output=True, text=True, timeout=PATIENCE,
                              check=True).stdout

    def said(self, form):
        return self.tmux("display-message", "-p", form).removesuffix("\n")

    def text(self):
        """Returns the rows of the screen, without blanks at their ends."""
        return self.tmux("capture-pane", "-p").split("\n")[:-1]

    def lines(self):
        """Returns the rows that are not blank."""
        return [line for line in self.text() if line]

    def colours(self):
        """Returns the numbers of the colours on the screen, as terminals have them."""
        found = re.findall("\x1b\\[([0-9;]*)m", self.tmux("capture-pane", "-pe"))
        return {int(number) for one in found for number in one.split(";") if re.fullmatch("[34][0-7]", number)}

    def resize(self, columns, rows):
        self.tmux("resize-window", "-x", f"{columns}", "-y", f"{rows}")

    def type(self, text):
        self.tmux("send-keys", "-l", "--", text)

    def wait_until(self, is_so, seconds=PATIENCE):
        """Waits until something is so of the terminal, or the program has ended. Returns whether it is so."""
        end, pause = time.monotonic() + seconds, 0.02
        while time.monotonic() < end:
            has_ended = pause > 0.1 and self.ended_with() is not None  # each look starts a program
            if is_so(self):
                return True
            if has_ended:
                return False
            time.sleep(pause)
            pause = min(2 * pause, 0.5)
        return False

    def shows(self, text):
        """Waits until a text is in a row of the screen. Returns whether it is."""
        return self.wait_until(lambda terminal: any(text.rstrip() in line for line in terminal.text()))

    def ended_with(self):
        """Returns the exit status, or minus the number of a signal; None before the end."""
        is_dead, status, number, server = self.said("#{pane_dead}:#{pane_dead_status}:#{pane_dead_signal}:#{pid}").split(":")
        if is_dead == "1" and not (status or number):
            os.kill(int(server), signal.SIGCHLD)  # tmux misses an end now and then
        return int(status) if status else -int(number) if number else None

    def status(self):
        """Waits for the end, and returns the exit status, or minus the number of a signal."""
        self.wait_until(lambda one: one.ended_with() is not None)
        return self.ended_with()

    def hang_up(self):
        """Closes the terminal. Returns whether the program then ends."""
        self.tmux("kill-pane")
        end = time.monotonic() + PATIENCE
        while os.path.exists(f"/proc/{self.pid}") and time.monotonic() < end:
            time.sleep(0.02)
        return not os.path.exists(f"/proc/{self.pid}")

    def close(self):
        """Ends the program, if it has not ended, and closes the terminal."""
        self.server.terminate()
        self.server.wait(PATIENCE)
        self.room.cleanup()
