"""Runs a program of Python as a system without Unix would: no module and no name that Windows lacks, no program but Python itself.

    python3 tests/without_unix.py PROGRAM [WORD ..]
"""

import os
import platform
import runpy
import select
import signal
import subprocess
import sys

MODULES = ("_curses", "curses", "fcntl", "grp", "pty", "pwd", "readline", "resource", "termios", "tty")
NAMES = {os: ("O_NONBLOCK", "fchmod", "fork", "geteuid", "getpgid", "getuid", "killpg", "mkfifo", "openpty", "pwrite",
              "sched_getaffinity", "set_blocking", "setsid", "ttyname"),
         select: ("poll", "epoll"),
         signal: ("SIGALRM", "SIGCONT", "SIGHUP", "SIGKILL", "SIGPIPE", "SIGTSTP", "SIGWINCH", "SIGXFSZ")}
BEGIN = subprocess.Popen.__init__


def begin(self, words, **how):
    """Begins a program if Windows would: Python alone, and without what only Unix has."""
    if (how.get("executable") or words[0]) != sys.executable or how.get("preexec_fn"):
        raise OSError(8, "not a program of this system")
    BEGIN(self, words, **how)


def hide():
    sys.modules.update(dict.fromkeys(MODULES))
    for module, names in NAMES.items():
        for name in names:
            if hasattr(module, name):
                delattr(module, name)
    platform.system, platform.machine = lambda: "Windows", lambda: "AMD64"
    subprocess.Popen.__init__ = begin
    subprocess.Popen.kill = lambda self: os.kill(self.pid, 9)


hide()
sys.argv = sys.argv[1:]
sys.path[0] = os.path.dirname(os.path.realpath(sys.argv[0]))
runpy.run_path(sys.argv[0], run_name="__main__")
