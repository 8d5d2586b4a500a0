#!/usr/bin/env python3
"""Converses with the simulator over a pipe, and shows each line of a script with its answer.

    examples/over-a-pipe/show.py ./pp6600 [WORD ..] <SCRIPT

The answer to a line is read before the next line is written. An answer may have several lines, and none says that it is the
last. So a DUMP CR follows each line: its answer, the only one that begins with CR, tells that the answer before it is whole.
"""

import contextlib
import os
import subprocess
import sys
import threading

PATIENCE = int(os.environ.get("PP6600_PATIENCE") or 30)  # seconds for an answer


def answer(simulator, line):
    """Yields the lines of the answer to a line."""
    asked = line.upper().split() == [b"DUMP", b"CR"]
    try:
        simulator.stdin.write(line + b"\n" if asked else line + b"\nDUMP CR\n")
        simulator.stdin.flush()
    except BrokenPipeError:
        pass  # the simulator has ended, so there is no answer to read
    for text in simulator.stdout:
        last = text.startswith(b"CR ")
        if asked or not last:
            yield text
        if last:
            return
    raise EOFError("the simulator ended before it answered")


@contextlib.contextmanager
def time_limit(simulator):
    """Ends a simulator that does not answer in time."""
    late = threading.Event()

    def give_up():
        late.set()
        simulator.kill()

    limit = threading.Timer(PATIENCE, give_up)
    limit.start()
    try:
        yield
    except EOFError as end:
        if late.is_set():
            raise TimeoutError(f"the simulator has not answered for {PATIENCE} (decimal) seconds") from end
        raise
    finally:
        limit.cancel()


def show(simulator, script, output):
    """Shows the lines of a script with their answers."""
    for line in script:
        line = line.rstrip(b"\n")
        output.write(b"> " + line + b"\n")
        output.flush()
        with time_limit(simulator):
            for text in answer(simulator, line):
                output.write(text)
        output.flush()


def is_built(program):
    """Returns whether there is a simulator: the launcher of a checkout proves and builds it first, however long that takes."""
    if not os.path.exists(os.path.join(os.path.dirname(program), "crates.txt")):
        return True
    return subprocess.run([program, "--help"], stdin=subprocess.DEVNULL, stdout=subprocess.DEVNULL, check=False).returncode == 0


def main():
    """Returns the exit status of the simulator. It is 2 or 3 if it ended early, and then it has said why."""
    if not sys.argv[1:]:
        raise OSError("give the simulator and its options, as in show.py ./pp6600 <SCRIPT")
    if sys.stdin is None or sys.stdout is None:
        raise OSError("standard input is closed or a folder, or standard output is closed")
    if not is_built(sys.argv[1]):
        return 2
    simulator = subprocess.Popen(sys.argv[1:], stdin=subprocess.PIPE, stdout=subprocess.PIPE)
    try:
        show(simulator, sys.stdin.buffer, sys.stdout.buffer)
    except EOFError:
        if simulator.wait() < 2:
            raise
    try:
        simulator.communicate(timeout=PATIENCE)
    except subprocess.TimeoutExpired:
        simulator.kill()
        raise TimeoutError("the simulator does not end after the end of its input") from None
    return simulator.returncode


try:
    status = main()
except (OSError, EOFError) as fault:
    if sys.stderr:
        print(f"show.py: {fault}", file=sys.stderr)
    os.dup2(os.open(os.devnull, os.O_WRONLY), 1)  # what can't be written is not tried again at the end
    status = 2
sys.exit(status)
