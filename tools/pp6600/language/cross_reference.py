"""The cross-reference of a source: each symbol with its value, the lines that define it, and those that use it."""

import re
from typing import Dict, Iterator, List, Sequence, Set

from ..engine.assembler import NAMES, ROWS, Text
from .notation import SYMBOL, Statement, end_of_text
from .program import LOCAL, name_of, row_of, written

HEAD = "* SYMBOL    VALUE  DEFINED / USED IN LINES (DECIMAL)"
# What has names or text after it; of these how many parts come before the text, or before the symbols.
WITHOUT_SYMBOLS = """TITLE TTL COMMENT LIST NOREF XREF NOLABEL QUAL USE CTEXT XTEXT OPSYN PURGMAC MACRO MACROE RMT BASE CODE IFC
    IFCP LOCAL IRP""".split()
BEFORE_TEXT = {"DIS": 1, "MICRO": 2}
COUNTER = re.compile("[*][LO]?(?![A-Z0-9])")
BEFORE_A_TERM = "=+-*/,(^"


def symbols_in(statement: Statement) -> Iterator[str]:
    """Yields the symbols of an operand, and what may be one."""
    operand, parts = statement.operand, BEFORE_TEXT.get(statement.operation, len(statement.operand))
    at = max(operand.find(","), 0) if statement.operation == "IDENT" else 0  # behind the name of the program
    while at < len(operand) and operand[at] not in " \t" and parts and statement.operation not in WITHOUT_SYMBOLS:
        is_term = at == 0 or operand[at - 1] in BEFORE_A_TERM
        end = end_of_text(operand, at) if is_term else None
        found = (COUNTER.match(operand, at) or SYMBOL.match(operand, at)) if is_term and not end else None
        if found and found[0][0] != "*":
            yield found[0]
        parts -= operand[at] == ","
        at = end or (found.end() if found else at + 1)


def cross_reference(lines: Sequence[str], texts: Sequence[Text]) -> List[str]:
    """Returns the lines of the cross-reference of a source that has no fault: notes, as a listing has them."""
    rows = [row for row in map(row_of, written(lines, ROWS, texts)) if row.is_performed]
    values = {name: number for name, number, _ in map(name_of, written(lines, NAMES, texts)) if not LOCAL.fullmatch(name)}
    values.update({row.statement.label: row.value or 0 for row in rows if row.is_set})  # the last one
    defined: Dict[str, Set[int]] = {name: set() for name in values}
    used: Dict[str, Set[int]] = {name: set() for name in values}
    for row in rows:
        defined.get(row.statement.label, set()).add(row.number)
        for name in symbols_in(row.statement):
            used.get(name, set()).add(row.number)
    return [HEAD, *(f"* {name:9} {values[name]:04o}   {shown(defined[name])} / {shown(used[name])}" for name in sorted(values))]


def shown(numbers: Set[int]) -> str:
    return " ".join(map(str, sorted(numbers))) or "-"
