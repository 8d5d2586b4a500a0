"""The requests that set breakpoints."""

from typing import Any, Callable, Dict, Iterable, Iterator, List, Optional, Sequence, Tuple

from ...failure import Failure
from ...run.forms import CELLS, MOST_WATCHES, Place
from .breakpoints import (DATA, DATA_ID, INSTRUCTION, INSTRUCTION_ID, LINE, LINE_ID, SOURCE_ID, Breakpoints, Point, ProcessorCell,
                          places_of)
from .listings import Listings
from .own import OwnSources, SourceFile
from .protocol import Wire
from .terms import Terms
from .variables import place_of, scope_and_number, value_of

PointOf = Callable[[Dict[str, Any]], Tuple[Dict[str, Any], Point]]


class Setting:
    """Those of an `Adapter`."""

    wire: Wire
    machine: Any  # a session that is debugged, with its listings and sources, if one has begun
    listings: Listings
    own: OwnSources
    points: Breakpoints
    own_asked: Dict[str, List[Dict[str, Any]]]  # in the user's own sources, by their paths, and the numbers for those
    numbers: Iterator[int]
    base: int  # the first line, as the editor counts

    def terms(self, asked: Dict[str, Any], numbers: Sequence[int]) -> Terms:
        """Returns the terms that are asked for, of a breakpoint to which some processors may come."""
        terms = Terms.of(asked, numbers, self.own.symbols)
        for place in terms.places():
            try:
                self.machine.number_at(place)
            except Failure:
                raise Failure(f"ERR 04 RANGE: {place.text} is not there") from None
        return terms

    def set_points(self, key: Any, asked: Iterable[Dict[str, Any]], point_of: PointOf) -> Dict[str, Any]:
        """Sets what is asked for in place of the breakpoints with this key, and returns the answers. The function `point_of`
        returns an answer with its breakpoint, or refuses."""
        answers: List[Dict[str, Any]] = []
        self.points.of[key] = []
        for one in asked:
            known: Dict[str, Any] = {"id": one["id"]} if "id" in one else {}
            try:
                answer, point = point_of(one)
                self.points.of[key].append(point)
                answers.append({"verified": True, **answer, **known})
            except Failure as refused:
                known.update({"line": one["line"]} if "line" in one else {})
                answers.append({"verified": False, "message": str(refused), **known})
        return {"breakpoints": answers}

    # ---- on lines

    def do_setBreakpoints(self, source: Dict[str, Any], breakpoints: Sequence[Any] = (), **_: Any) -> Dict[str, Any]:
        asked = breakpoints or []
        for one in asked:
            if type(one["line"]) is not int:
                raise Failure(f"{one['line']} is no line")
        number, file = self.listings.number_of(source), self.own.file(source.get("path"))
        if not file:
            return self.set_points(number, asked, lambda one: self.listing_point(number, source, one))
        self.own_asked[file.path] = [{**one, "id": SOURCE_ID | next(self.numbers)} for one in asked]
        return self.set_own(file)

    def listing_point(self, number: Optional[int], source: Dict[str, Any], one: Dict[str, Any]) -> Tuple[Dict[str, Any], Point]:
        """Returns the answer and the breakpoint on a line of a listing."""
        address = one["line"] - self.base
        if number is None:
            raise Failure(f"{source.get('name') or source.get('path')} is no source and no listing of this session")
        if not 0 <= address < CELLS:
            raise Failure("no line of the listing")
        cell = ProcessorCell(number, address)
        point = Point(LINE_ID | cell.bits, LINE, {cell: None}, terms=self.terms(one, [number]))
        return {"id": point.number, "line": one["line"], "source": self.listings.source(number),
                "instructionReference": cell.reference}, point

    def set_own(self, file: SourceFile) -> Dict[str, Any]:
        """Sets what was asked for in a source of the user. Returns the answers."""
        self.notice(file)
        return self.set_points(file.path, self.own_asked.get(file.path, ()), lambda one: self.own_point(file, one))

    def own_point(self, file: SourceFile, one: Dict[str, Any]) -> Tuple[Dict[str, Any], Point]:
        """Returns the answer and the breakpoint on a line of a file, or on the next one that makes words."""
        line = file.next_line(one["line"] - self.base + 1)
        if line is None:
            raise Failure("no line from here on makes a word")
        cells = file.cells(line)
        point = Point(one["id"], LINE, {**cells}, (), self.terms(one, sorted({cell.number for cell in cells})), file, line)
        return {"line": line - 1 + self.base, "source": file.source, "instructionReference": min(cells).reference}, point

    def set_own_again(self) -> None:
        """Sets the breakpoints in the user's sources after a restart, which has assembled them again, and says where they are
        now."""
        for path in self.own_asked:
            self.points.of.pop(path, None)
        for file in self.own.files:
            for answer in self.set_own(file)["breakpoints"]:
                self.wire.event("breakpoint", reason="changed", breakpoint=answer)

    def notice(self, file: SourceFile) -> None:
        """Says once that a file has changed since the launch."""
        if file.has_changed():
            self.wire.say(f"{file.path} was changed after the launch: its lines here are those of the launch; restart to assemble "
                          f"it again")

    # ---- on addresses and places

    def do_setInstructionBreakpoints(self, breakpoints: Sequence[Any], **_: Any) -> Dict[str, Any]:
        return self.set_points(INSTRUCTION, breakpoints, self.instruction_point)

    def instruction_point(self, one: Dict[str, Any]) -> Tuple[Dict[str, Any], Point]:
        cell = ProcessorCell.of(str(one.get("instructionReference")), one.get("offset", 0))
        point = Point(INSTRUCTION_ID | cell.bits, INSTRUCTION, {cell: None}, terms=self.terms(one, [cell.number]))
        return {"id": point.number, "instructionReference": cell.reference}, point

    def do_setExceptionBreakpoints(self, **_: Any) -> Dict[str, Any]:
        return {"breakpoints": []}

    def do_dataBreakpointInfo(self, name: str, variablesReference: Optional[int] = None, **_: Any) -> Dict[str, Any]:
        try:
            number = scope_and_number(variablesReference)[1] if variablesReference else None
            is_range = len(name.split()) == 4
            places = places_of(name, self.own.symbols, number) if is_range else [place_of(name, number, self.own.symbols)]
            self.check(places)
        except Failure as refused:
            return {"dataId": None, "description": str(refused)}
        text = places[0].short + (f" {places[-1].numbers[-1]:o}" if places[1:] else "")
        return {"dataId": text, "description": f"a change of {text}", "accessTypes": ["write"], "canPersist": True}

    def check(self, places: Iterable[Place]) -> None:
        """Sees that places are there."""
        for place in places:
            value_of(self.machine, place)

    def do_setDataBreakpoints(self, breakpoints: Sequence[Any], **_: Any) -> Dict[str, Any]:
        found = self.set_points(DATA, [{**one, "id": DATA_ID | at} for at, one in enumerate(breakpoints)], self.data_point)
        return {"breakpoints": [{"id": one["id"], **one} for one in found["breakpoints"]]}

    def data_point(self, one: Dict[str, Any]) -> Tuple[Dict[str, Any], Point]:
        """Returns an answer, and a data breakpoint."""
        places = places_of(str(one.get("dataId")), self.own.symbols)
        if one.get("accessType", "write") != "write":
            raise Failure("only changes are seen")
        if len({*self.machine.state.watched, *self.points.places(), *places}) > MOST_WATCHES:
            raise Failure("at most eight places are watched, those of WATCH among them")
        self.check(places)
        terms = self.terms({**one, "logMessage": None}, [])  # the protocol has no such log points
        return {}, Point(one["id"], DATA, places=tuple(places), terms=terms)
