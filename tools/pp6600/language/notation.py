"""The notation of sources, docs/ASSEMBLER.md: the names of operations, and the fields of a line. What they mean only the library's
assembler knows."""

from typing import Dict, List, NamedTuple, Optional, Sequence

import re

from ..run.turn import NAMES, TWO_WORDS

MNEMONICS: Sequence[str] = NAMES
CODES: Dict[str, int] = {name: code for code, name in reversed(list(enumerate(NAMES)))}  # of PSN, which is three, the first
MAKERS = ("CON", "DATA", "VFD", "POS", "DIS", "BSSZ")
LONG_FORMS = ("LDK", "ADK")
DIRECTIVES = (*MAKERS, *LONG_FORMS, *"""EQU = SET MAX MIN ORG LOC USE BSS END ABS SST ENTRY TITLE TTL SPACE EJECT LIST NOREF XREF
    COMMENT CTEXT ENDX NOLABEL NIL ERR ERRNZ ERRZR ERRPL ERRMI ERRNG IDENT BASE PERIPH QUAL MICRO DECMIC OCTMIC MICCNT LIT
    SEG LCC CODE COL""".split())
OF_LINES = ("XTEXT", "HERE", "OPSYN", "PURGMAC")
BLOCKS = "IF IFC IFEQ IFNE IFGT IFGE IFLT IFLE IFPL IFMI IFPP IFCP SKIP DUP ECHO MACRO MACROE RMT".split()
INSIDE = ("ENDIF", "ELSE", "ENDD", "ENDM", "LOCAL", "IRP", "STOPDUP")  # what is in its place only in such lines
SUBR = "SUBR"  # a macro whose label is the second word of its jump
REFUSED = "OPDEF PPOP EXT SEGMENT ORGC STEXT PPU MXN MAN SCF CCF SFM CFM IAPM OAPM".split()
BASES = {"OCTAL": 8, "DECIMAL": 10, "MIXED": 8}
MICROS = ("DATE", "JDATE", "TIME", "MODLEVEL", "PCOMMENT")  # that COMPASS defines by the clock or its call
TAB = 8
FIRST_OF_COMMENTS = 29  # the column, counted from 0, from which on no operand begins
WORD_BITS = 12
LITERAL = "*         LITERAL"  # what the listing has instead of a source line
NOMINAL, LITERALS = "", "LITERALS*"  # the blocks that USE does not name
SYMBOL = re.compile(r"""[^\W\d_a-z][^\s+\-*/,^"()_a-z]*|[.#%@&!?<>\[\];\\':][^\s+\-*/,^"()_a-z]*""", re.A)
FIELDS = re.compile(r" ?([^ \t]*)[ \t]*([^ \t]*)[ \t]*(.*)")
COUNTED, DELIMITED = re.compile("([0-9]{1,9})[HLRACZ]"), re.compile("[HLRACZ]([^A-Z0-9 ])")


class Statement(NamedTuple):
    """The fields of a line, in capitals. The operand has the comment after it."""

    label: str
    operation: str
    operand: str


def statement_of(text: str) -> Statement:
    """Returns the fields of a line; a note has none."""
    fields = FIELDS.match("" if text.startswith("*") else text.upper())
    if not fields:
        return Statement("", "", "")
    is_far = fields.start(3) - fields.end(2) > 1 and len(text[:fields.start(3)].expandtabs(TAB)) >= FIRST_OF_COMMENTS
    return Statement(fields[1], fields[2], "" if is_far else fields[3])


def size_of(code: int) -> int:
    """Returns how many words an instruction has."""
    return 2 if code in TWO_WORDS else 1


def end_of_text(operand: str, at: int) -> Optional[int]:
    """Returns where the text that begins at a column ends; None if none begins there."""
    counted, delimited = COUNTED.match(operand, at), DELIMITED.match(operand, at) if operand[at - 1:at] == "=" else None
    if counted:
        return counted.end() + (int(counted[1]) or len(re.split("[ \t,]", operand[counted.end():], maxsplit=1)[0]))
    end = operand.find(delimited[1], delimited.end()) if delimited else -1
    return None if end < 0 else end + 1


def parts_of(operand: str) -> List[str]:
    """Returns the parts of an operand, between commas that are in no text."""
    found, start, at = [], 0, 0
    while at < len(operand) and operand[at] not in " \t":
        if operand[at] == ",":
            found.append(operand[start:at])
            start = at = at + 1
            continue
        at = (at == start or operand[at - 1] in "=+-*/") and end_of_text(operand, at) or at + 1
    return [*found, operand[start:at]]
