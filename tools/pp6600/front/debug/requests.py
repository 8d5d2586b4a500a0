"""The requests that show the machine, or set its numbers."""

import base64
import binascii
from typing import Any, Callable, Dict, Iterable, List, Optional

from ...failure import Failure
from ...language.calls import calls, sentence
from ...language.cells import set_lines
from ...run.forms import CELLS, PROCESSORS, hit_of
from .breakpoints import ProcessorCell
from .listings import instruction
from .running import Runner
from .setting import Setting
from .variables import CALL_SCOPE, place_of, scope_and_number, scopes, set_line, value_of, variable, variables

LINE_CONTEXTS = ("repl", "clipboard", "")  # of what is typed; the others must not act
PREFIX = ":"  # of a line that an editor evaluates as a watch expression
MOVES = {"OK": "goto", "TURNS": "step", "BACK": "step", "FORWARD": "step"}  # why it has stopped, by an answer
NO_INSTRUCTION = {"address": "0xffffffff", "instruction": "(no cell)"}
MOST_INSTRUCTIONS = 1 << 17  # that are disassembled at once
NO_CHANGE = "ERR 10 NO CHANGE KEPT"  # of BACK W


class Requests(Setting):
    """Those of an `Adapter`."""

    shown: int  # the processor of the last stop
    after: Optional[Callable[[], object]]  # what is done after the answer to a request
    sees_invalidated: bool

    def number(self, thread: int) -> int:
        """Returns the processor of a thread."""
        if not isinstance(thread, int) or not 1 <= thread <= PROCESSORS:
            raise Failure(f"{thread} is no thread: they are 1 to {PROCESSORS}")
        return thread - 1

    def look(self) -> None:
        """Looks at the machine; the listings follow it."""
        self.machine.look()
        for number in range(PROCESSORS):
            self.listings.follow(number, self.machine.state.memories[number])

    def stopped(self, reason: str, number: int, text: str = "", ids: Iterable[int] = ()) -> None:
        """Looks at the machine, and says that it has stopped."""
        self.look()
        self.shown = number
        if text:
            self.wire.say(text)
        self.wire.event("stopped", reason=reason, threadId=number + 1, allThreadsStopped=True,
                        **({"description": text, "text": text} if text else {}), **({"hitBreakpointIds": list(ids)} if ids else {}))

    # ---- where the processors are

    def frame(self, frame: int) -> int:
        """Returns the processor of a frame: each has one, and one more in a block transfer."""
        if not isinstance(frame, int) or not 1 <= frame <= 2 * PROCESSORS:
            raise Failure(f"{frame} is no frame")
        return (frame - 1) % PROCESSORS

    def do_stackTrace(self, threadId: int, startFrame: int = 0, levels: int = 0, **_: Any) -> Dict[str, Any]:
        number, state = self.number(threadId), self.machine.state
        processor, memory = state.processors[number], state.memories[number]
        waits = processor.waits_for(state.states())
        name = f"P {processor.p:04o} {'in ' if processor.phase else ''}{processor.text}{f' waits for {waits}' if waits else ''}"
        frames = [self.one_frame(threadId, name, ProcessorCell(number, processor.p), not processor.phase)]
        begun = processor.address(memory.number) if processor.phase else None
        if begun is not None:
            frames.append(self.one_frame(threadId + PROCESSORS, f"begun at {begun:04o}", ProcessorCell(number, begun)))
        return {"stackFrames": frames[startFrame:startFrame + levels if levels else None], "totalFrames": len(frames)}

    def one_frame(self, frame: int, name: str, cell: ProcessorCell, is_code: bool = True) -> Dict[str, Any]:
        return {"id": frame, "name": name, "column": self.base, "instructionPointerReference": cell.reference,
                **self.where(cell, is_code)}

    def where(self, cell: ProcessorCell, is_code: bool = True) -> Dict[str, Any]:
        """Returns where a cell is shown: in the user's own source if it has the instruction of a line, or in the listing."""
        memory, (number, address) = self.machine.state.memories[cell.number], cell
        line = self.own.line(number, address, [memory.number(address), memory.number(address + 1)]) if is_code else None
        if line:
            self.notice(line.file)
            return {"line": line.number - 1 + self.base, "source": line.file.source}
        return {"line": address + self.base, "source": self.listings.source(number)}

    def do_source(self, source: Optional[Dict[str, Any]] = None, sourceReference: int = 0, **_: Any) -> Dict[str, Any]:
        number = self.listings.number_of(source) if source else None
        number = sourceReference - 1 if number is None else number
        if number not in range(PROCESSORS):
            raise Failure("no listing of this session")
        return {"content": self.listings.text(number, self.machine.state.memories[number]), "mimeType": "text/plain"}

    def do_gotoTargets(self, source: Dict[str, Any], line: int, **_: Any) -> Dict[str, Any]:
        number, file, address = self.listings.number_of(source), self.own.file(source.get("path")), line - self.base
        listed = [ProcessorCell(number, address)] if number is not None and 0 <= address < CELLS else []
        cells = listed or (sorted(file.cells(address + 1)) if file else [])
        return {"targets": [{"id": cell.bits, "label": f"P {cell.address:04o}", "line": line,
                             "instructionPointerReference": cell.reference} for cell in cells]}

    def do_goto(self, threadId: int, targetId: int, **_: Any) -> None:
        number, target = self.number(threadId), ProcessorCell(*divmod(targetId, CELLS))
        if target.number != number:
            raise Failure(f"that is a cell of PP {target.number:02o}" if target.number < PROCESSORS else "that is no target")
        self.set_number(f"SET P {number:o} {target.address:o}")
        self.after = lambda: self.stopped("goto", number)

    # ---- numbers

    def do_scopes(self, frameId: int, **_: Any) -> Dict[str, Any]:
        number = self.frame(frameId)
        return {"scopes": scopes(number, number in self.own.of)}

    def do_variables(self, variablesReference: int, start: int = 0, count: int = 0, **_: Any) -> Dict[str, Any]:
        scope, number = scope_and_number(variablesReference)
        if scope == CALL_SCOPE:  # the innermost first
            source, scout = self.own.of.get(number), self.machine.scout()
            begun = calls(scout, number, source, self.machine.position) if source else ()
            found = [variable(f"{at}", sentence(scout, number, call, self.own.symbols)) for at, call in enumerate(begun, 1)]
        else:
            found = variables(self.machine, scope, number, dict.fromkeys([*self.machine.state.watched, *self.points.places()]))
        return {"variables": found[start:start + count] if count else found}

    def act(self, line: str) -> List[str]:
        """Performs a line, and returns its answer. What was ahead may be lost by it: that is said."""
        machine, ahead = self.machine, self.machine.to_redo
        answer: List[str] = machine.typed(line)
        here = machine.unit
        if answer == [NO_CHANGE] and Runner(machine, self.points).back(is_typed=True):
            answer = [f"BACK {here - machine.unit:o} SLOT {machine.slot():02o}"]
        if ahead and answer and answer[0].split()[0] in ("OK", "TURNS"):
            self.wire.say(f"{ahead:o} actions (octal) that were ahead are so no longer")
        return answer

    def set_number(self, line: str) -> None:
        """Performs a line that sets numbers."""
        answer = self.act(line)
        if answer != ["OK"]:
            raise Failure(f"{answer[0] if answer else 'nothing'}: {line}")
        self.look()

    def do_setVariable(self, variablesReference: int, name: str, value: str, **_: Any) -> Dict[str, Any]:
        place, line = set_line(*scope_and_number(variablesReference), name, value.strip())
        self.set_number(line)
        if self.sees_invalidated:
            self.after = lambda: self.wire.event("invalidated", areas=["all"])
        return {"value": value_of(self.machine, place)}

    # ---- what is typed or pointed at

    def do_evaluate(self, expression: str, frameId: Optional[int] = None, context: str = "repl", **_: Any) -> Dict[str, Any]:
        number = self.frame(frameId) if frameId else self.shown
        text, is_line = expression.strip(), context == "watch" and expression.strip().startswith(PREFIX)
        text = text[len(PREFIX):].strip() if is_line else text
        try:
            return {"result": self.value(text, number), "variablesReference": 0}
        except Failure:
            if not is_line and context not in LINE_CONTEXTS:
                raise
        answers = []
        for line in text.split("\n"):
            if self.wire.is_gone:
                break
            answers += self.typed(self.own.symbols.in_digits(line).encode("utf-8", "replace").decode("latin-1"), number)
        return {"result": "\n".join(answers), "variablesReference": 0}

    def value(self, text: str, number: int) -> str:
        """Returns the number at a place, or the cell that a label of the processor's symbols names."""
        address = self.own.symbols.address(number, text)
        if address is None or address >= CELLS:
            return value_of(self.machine, place_of(text, number, self.own.symbols))
        return instruction(self.machine.state.memories[number], address)

    def typed(self, line: str, number: int) -> List[str]:
        """Performs a line that was typed. Returns the lines of its answer; after one that moves the machine a stop follows."""
        answer = self.act(line)
        kind = answer[0].split()[0] if answer else ""
        word = line.upper().split()[:1]
        if kind == "OK" and word in (["WATCH"], ["UNWATCH"]):
            self.machine.look()
        elif kind in MOVES:
            self.look()
            hit = hit_of(answer) or ""
            self.after = lambda: self.stopped("data breakpoint" if hit else MOVES[kind], number, hit)
        return answer

    # ---- memory and instructions

    def do_readMemory(self, memoryReference: str, count: int, offset: int = 0, **_: Any) -> Dict[str, Any]:
        cell = ProcessorCell.of(memoryReference, offset)
        if not isinstance(count, int) or count < 0:
            raise Failure(f"{count} is no count of bytes: it is 0 or more")
        numbers = self.machine.state.memories[cell.number].numbers[cell.address:cell.address + (count + 1) // 2]
        data = b"".join(number.to_bytes(2, "big") for number in numbers)[:count]
        return {"address": cell.reference, "data": base64.b64encode(data).decode("ascii"), "unreadableBytes": count - len(data)}

    def do_writeMemory(self, memoryReference: str, data: Any, offset: int = 0, **_: Any) -> Dict[str, Any]:
        cell = ProcessorCell.of(memoryReference, offset)
        try:
            data = base64.b64decode(data, validate=True)
        except binascii.Error as error:
            raise Failure(f"what is to be written is not base64: {error}") from None
        if len(data) % 2 or any(byte > 0o17 for byte in data[::2]):
            raise Failure("a cell is two bytes, the upper bits first, and has 12 bits (decimal)")
        words = [f"{int.from_bytes(data[at:at + 2], 'big'):04o}" for at in range(0, len(data), 2)]
        if cell.address + len(words) > CELLS:
            raise Failure("that goes past cell 7777")
        for line in set_lines(cell.number, cell.address, words):
            self.set_number(line)
        return {"bytesWritten": len(data)}

    def do_disassemble(self, memoryReference: str, instructionCount: int, offset: int = 0, instructionOffset: int = 0,
                       **_: Any) -> Dict[str, Any]:
        if instructionCount > MOST_INSTRUCTIONS:
            raise Failure(f"{instructionCount} instructions are too many: {MOST_INSTRUCTIONS} at most")
        cell = ProcessorCell.of(memoryReference, offset)
        first = cell.address + instructionOffset
        return {"instructions": [self.instruction(cell.number, at) if 0 <= at < CELLS else NO_INSTRUCTION
                                 for at in range(first, first + instructionCount)]}

    def instruction(self, number: int, address: int) -> Dict[str, Any]:
        """Returns a cell as an instruction, and where its line is."""
        memory, cell = self.machine.state.memories[number], ProcessorCell(number, address)
        found = self.where(cell)
        return {"address": cell.reference, "instructionBytes": memory.word(address),
                "instruction": instruction(memory, address), "location": found["source"], "line": found["line"]}
