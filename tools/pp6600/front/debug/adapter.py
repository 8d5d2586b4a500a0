"""The requests of an editor that begin, run and end a session."""

import itertools
from typing import Any, Callable, Dict, Iterable, List, Optional, Tuple

from ...devices.options import device_of
from ...engine.choose import default_engine
from ...failure import Failure
from ...language.symbol_options import Given, symbols_from
from ...run.device import DeviceFailure
from ...run.forms import PROCESSORS
from ...run.tape import counted
from ...shell.ending import shown_text
from ...shell.options import OPTIONS, processor
from ...shell.text_files import script_lines, shown
from .breakpoints import DATA, Breakpoints, Point
from .debugged import MachineWithDevices, MachineWithoutDevices
from .listings import Listings
from .own import OwnSources
from .protocol import Wire
from .requests import Requests
from .running import Runner
from .stepping import Stepper
from .stops import Stop

CAPABILITIES = {f"supports{name}": True for name in (
    "ConfigurationDoneRequest", "StepBack", "SetVariable", "DataBreakpoints", "InstructionBreakpoints", "DisassembleRequest",
    "ReadMemoryRequest", "WriteMemoryRequest", "SteppingGranularity", "EvaluateForHovers", "GotoTargetsRequest",
    "TerminateRequest", "RestartRequest", "ConditionalBreakpoints", "HitConditionalBreakpoints", "LogPoints")}
BEFORE_LAUNCH = ("initialize", "launch", "disconnect", "terminate")
WHILE_RUNNING = ("pause", "disconnect", "terminate", "threads", "source", "setBreakpoints", "setInstructionBreakpoints",
                 "setDataBreakpoints", "setExceptionBreakpoints", "dataBreakpointInfo")
MOST_SHOWN = 60  # characters of a line that was refused
BY_TURNS = "instruction"  # the granularity of a step
BEGINNING = "the beginning: no action comes before this"


class Adapter(Requests):
    """A session with an editor."""

    def __init__(self, wire: Wire) -> None:
        self.wire = wire
        self.machine = None
        self.has_listings = False
        self.points, self.own_asked, self.numbers = Breakpoints(), {}, itertools.count(1)  # of those in the user's own sources
        self.after = None  # what is done after the answer to a request
        self.restart: Optional[Dict[str, Any]] = None  # a request that ended a run
        self.failure: Optional[Failure] = None  # why the editor can't be understood
        self.is_ended = self.is_paused = self.is_running = self.is_terminated = False
        self.shown = self.paused = 0  # the processor of the last stop, and the one to be shown at a pause
        self.base = 1  # the first line, as the editor counts
        self.sees_invalidated = False
        self.arguments: Dict[str, Any] = {}

    # ---- the conversation

    def serve(self) -> None:
        """Does what is asked until the end. What the editor writes that is no message is a failure."""
        while not self.is_ended:
            self.take(self.wire.requests.get())
        if self.failure:
            raise self.failure

    def take(self, request: Any) -> None:
        """Takes what has come from the editor. A restart ends a run first."""
        if isinstance(request, Failure):
            self.failure = request
        if request is None or self.failure:
            self.is_ended = True
        elif self.is_running and request["command"] == "restart":
            self.restart = request
        else:
            self.answer(request)

    @property
    def is_over(self) -> bool:
        """Whether no stop is to be reported any more."""
        return self.is_ended or self.is_terminated or self.restart is not None

    def goes_on(self) -> bool:
        """Takes the requests that have come. Returns whether a run goes on."""
        while not (self.is_ended or self.restart or self.wire.requests.empty()):
            self.take(self.wire.requests.get())
        return not (self.is_paused or self.is_over)

    def answer(self, request: Dict[str, Any]) -> bool:
        """Answers a request, and then does what it began. Returns whether it could be done."""
        command, self.after = request["command"], None
        answer: Dict[str, Any] = {"success": True}
        try:
            body = self.method(command)(**(request.get("arguments") or {}))
            answer.update({"body": body} if body is not None else {})
        except (Failure, TypeError, KeyError, ValueError, AttributeError, OverflowError) as error:
            text = shown_text(str(error) if isinstance(error, Failure) else self.fault_of(command, request.get("arguments")))
            answer = {"success": False, "message": text,
                      "body": {"error": {"id": 1, "format": text.replace("{", "(").replace("}", ")"), "showUser": True}}}
        self.wire.write(type="response", request_seq=request["seq"], command=command, **answer)
        if not self.is_running:
            self.do(self.after if answer["success"] else None)
        return bool(answer["success"])

    def fault_of(self, command: str, arguments: Any) -> str:
        """Returns what is wrong with the arguments of a request: one that it needs is missing, or one is of a wrong kind."""
        import inspect  # a request is seldom faulty
        kinds = inspect.signature(self.method(command)).parameters.values()
        needed = [one.name for one in kinds if one.default is one.empty and one.kind is one.POSITIONAL_OR_KEYWORD]
        missing = [name for name in needed if not isinstance(arguments, dict) or name not in arguments]
        return (f"{command} needs {' and '.join(missing)}" if missing
                else f"an argument of {command} is not of the kind that it must be")

    def do(self, after: Optional[Callable[[], object]]) -> None:
        """Does what a request began. If a simulator ends, so does the session."""
        self.is_running, has_failed = True, False
        position = self.machine.position if self.machine else 0
        try:
            if after:
                after()
        except DeviceFailure as failure:
            self.machine.goto(position)
            self.wire.say(str(failure), "stderr")
            self.stopped("exception", self.shown, str(failure))
        except Failure as failure:
            self.wire.say(str(failure), "stderr")
            has_failed = True
        self.is_running = False
        if self.is_terminated:
            self.end_simulator()
            self.wire.event("exited", exitCode=0)
        if self.is_terminated or has_failed or self.machine and self.machine.is_ended:
            self.end_simulator()
            self.is_terminated = False
            self.wire.event("terminated")
        if self.restart:  # it has ended a run, which was paused if it can't be done
            request, self.restart = self.restart, None
            if not self.answer(request) and self.machine:
                self.stopped("pause", self.paused)

    def method(self, command: str) -> Callable[..., Any]:
        """Returns what does a request."""
        method: Optional[Callable[..., Any]] = getattr(self, f"do_{command}", None)
        if method is None:
            raise Failure(f"{command[:MOST_SHOWN]} is not supported")
        if self.machine is None and command not in BEFORE_LAUNCH:
            raise Failure("no simulator runs: launch one first")
        if self.is_running and command not in WHILE_RUNNING:
            raise Failure("the machine runs: pause it first")
        return method

    # ---- beginning and end

    def do_initialize(self, linesStartAt1: bool = True, supportsInvalidatedEvent: bool = False, **_: Any) -> Dict[str, bool]:
        self.base = 1 if linesStartAt1 else 0
        self.sees_invalidated = supportsInvalidatedEvent
        return CAPABILITIES

    def do_launch(self, **arguments: Any) -> None:
        given = {name: str(value) for name, value in arguments.items() if value not in (None, "")}
        words = [given.get("program") or default_engine()]
        words += [word for name in OPTIONS if name in given for word in (f"--{name}", given[name])]
        number = processor(given["processor"]) if "processor" in given else None
        lines = script_lines(given["script"]) if "script" in given else []
        systems = [str(path) for path in of_kind(list, arguments, "systems", "list")]
        symbols = symbols_from(pairs(arguments, "symbols"), pairs(arguments, "sources"), Given(given.get("text"), systems))
        devices = [device_of(str(text)) for text in of_kind(list, arguments, "devices", "list")]
        own, machine = OwnSources(symbols), MachineWithDevices(words, devices) if devices else MachineWithoutDevices(words)
        self.end_simulator()
        self.machine, self.arguments, self.own = machine, arguments, own
        self.listings, self.has_listings = self.listings if self.has_listings else Listings(), True
        self.listings.begin(symbols.of)
        self.perform_script(symbols.loading(lines))
        self.look()
        self.shown = self.machine.slot() if number is None else number
        self.after = lambda: self.wire.event("initialized")

    def perform_script(self, lines: Iterable[str]) -> None:
        """Performs a script after the lines that load the sources, and says which lines are refused."""
        for number, line in counted(lines):
            answer = self.machine.act(line)
            if answer and answer[0].startswith("ERR "):
                self.wire.say(f"line {number} (decimal) of the script was refused, {answer[0]}: {shown(line[:MOST_SHOWN])}",
                              "stderr")

    def do_configurationDone(self, **_: Any) -> None:
        self.after = self.enter

    def enter(self) -> None:
        """Stops after the script, or runs on from there."""
        if self.arguments.get("stopOnEntry", True):
            self.stopped("entry", self.shown)
        else:
            self.do_continue(self.shown + 1)
            if self.after:
                self.after()

    def do_restart(self, arguments: Optional[Dict[str, Any]] = None, **_: Any) -> None:
        self.do_launch(**(arguments or self.arguments))
        self.set_own_again()
        self.after = self.enter

    def do_terminate(self, **_: Any) -> None:
        self.is_terminated = True

    def do_disconnect(self, **_: Any) -> None:
        self.is_ended = True

    def end_simulator(self) -> None:
        if self.machine:
            self.machine.close()
            self.machine = None

    def close(self) -> None:
        """Ends the simulator and removes the listings."""
        self.end_simulator()
        if self.has_listings:
            self.listings.remove()

    # ---- running

    def do_threads(self, **_: Any) -> Dict[str, Any]:
        return {"threads": [{"id": number + 1, "name": f"PP {number:02o}"} for number in range(PROCESSORS)]}

    def do_pause(self, threadId: int = 1, **_: Any) -> None:
        self.paused = self.number(threadId)
        self.is_paused = True

    def go(self, thread: int, way: Callable[[Stepper], Optional[Stop]], otherwise: str = "step") -> None:
        """Goes after the answer, by a function of what steps the processor. A pause that comes from now on ends it. Reports the
        stop; if there is none, it is a pause, or another reason."""
        self.paused, self.is_paused = self.number(thread), False

        def run() -> None:
            stepper = Stepper(self.machine, self.own, Runner(self.machine, self.points, self.goes_on, self.write_log), self.paused)
            stop = way(stepper)
            if self.is_over:
                return
            if stop:
                self.report(stop)
            elif self.is_paused:
                self.stopped("pause", self.paused)
            else:
                self.stopped(otherwise, self.paused, stepper.remark if self.machine.position else BEGINNING)

        self.after = run

    def do_continue(self, threadId: int = 1, **_: Any) -> Dict[str, Any]:
        self.go(threadId, lambda stepper: stepper.runner.forward(self.shown), "pause")
        return {"allThreadsContinued": True}

    def do_reverseContinue(self, threadId: int = 1, **_: Any) -> None:
        self.go(threadId, lambda stepper: stepper.runner.back(), "entry")

    def do_stepIn(self, threadId: int, **_: Any) -> None:
        self.go(threadId, Stepper.turn)

    def do_next(self, threadId: int, granularity: str = "statement", **_: Any) -> None:
        self.go(threadId, Stepper.turn if granularity == BY_TURNS else Stepper.next_line)

    def do_stepOut(self, threadId: int, **_: Any) -> None:
        self.go(threadId, Stepper.out)

    def do_stepBack(self, threadId: int, granularity: str = "statement", **_: Any) -> None:
        self.go(threadId, lambda stepper: stepper.back(granularity != BY_TURNS))

    def report(self, stop: Stop) -> None:
        """Says why a run has stopped."""
        ids = dict.fromkeys(point.number for point in stop.met if point.number)
        if stop.place:
            self.stopped(DATA, stop.number, stop.text, ids)
        elif ids:
            self.stopped(stop.met[0].reason, stop.number, f"PP {stop.number:02o} is at {stop.address:04o}", ids)
        else:
            self.stopped("step", stop.number)

    def write_log(self, stop: Stop, point: Point) -> None:
        """Writes the text of a log point."""
        text = point.terms.log.said(stop.number, stop.position, self.machine.scout()) if point.terms.log else ""
        source, line = (point.file.source, point.line - 1) if point.file else (self.listings.source(stop.number), stop.address)
        self.wire.event("output", category="console", output=f"{text}\n", source=source, line=line + self.base)


def of_kind(kind: Any, arguments: Dict[str, Any], name: str, what: str) -> Any:
    """Returns an argument of a launch; an empty one of this kind if it is not given."""
    asked = arguments.get(name)
    if asked is not None and not isinstance(asked, kind):
        raise Failure(f"{name} is no {what}")
    return asked or kind()


def pairs(arguments: Dict[str, Any], name: str) -> List[Tuple[str, str]]:
    """Returns the processors and the files that an argument of a launch names."""
    return [(str(number), str(path))
            for number, path in of_kind(dict, arguments, name, "object with a file for each processor").items()]
