"""Installs the simulator, its tools, manual pages, completions and pages below a folder, or takes them away again."""

import os
import signal
import sys

signal.signal(signal.SIGINT, signal.SIG_DFL)  # an interrupt ends it, also while it starts

from pp6600.engine.choice import NAMES
from pp6600.failure import Failure
from pp6600.shell import installation
from pp6600.shell.ending import write
from pp6600.shell.files import run_over_files
from pp6600.shell.options import Parser

DESCRIPTION = """Installs the simulator, its tools, manual pages, completions and pages below PREFIX, a folder such as /usr/local or
~/.local; if the variable DESTDIR is set, below that one. In a checkout the program is the one that ./pp6600 runs. In an
installation or a release this copies what is there. What is installed needs neither the repository nor the Rattle kit."""


def parsed():
    """Returns what is asked."""
    parser = Parser(DESCRIPTION,
                    "[--program FILE] [--machine NAME] [--without solutions] PREFIX\n       %(prog)s --uninstall PREFIX")
    parser.add_argument("--program", metavar="FILE", help="another build of the program")
    parser.add_argument("--machine", choices=list(NAMES) + [installation.ALL],
                        help="a checkout's programs for another machine, or for all")
    parser.add_argument("--without", choices=["solutions"], help="leave out the solutions of the exercises")
    parser.add_argument("--uninstall", action="store_true", help="take away what is installed below PREFIX")
    parser.add_argument("prefix", metavar="PREFIX", nargs="?", help="the folder")
    asked = parser.parse()
    if not asked.prefix:
        raise Failure("give PREFIX, a folder such as /usr/local or ~/.local")
    return asked


def perform():
    signal.signal(signal.SIGINT, lambda *_: sys.exit(130))  # what was begun is taken away
    asked = parsed()
    os.umask(0o022)
    stage = os.environ.get("DESTDIR") or ""
    prefix = os.path.abspath(os.path.expanduser(asked.prefix))
    if stage:
        prefix = os.path.abspath(stage) + prefix
    if asked.uninstall:
        if not installation.is_installed(prefix):
            raise Failure("nothing of pp6600 is installed below {}".format(prefix))
        installation.take_away(prefix)
        write("install: pp6600 is taken away from {}".format(prefix))
        return
    if (not installation.IS_CHECKOUT and os.path.realpath(prefix) ==
        os.path.realpath(os.path.join(installation.TOP, os.pardir, os.pardir))):
        raise Failure("this installation is in {} already".format(prefix))
    manifest = installation.whole(asked.machine, asked.program)
    installation.install(installation.without_solutions(manifest) if asked.without else manifest, prefix)
    on_path = stage or os.path.join(prefix, "bin") in os.environ.get("PATH", "").split(os.pathsep)
    write("install: pp6600 is in {}/bin{}; see man pp6600".format(prefix, "" if on_path else ": put this folder on the path"))


def main():
    run_over_files(perform)
