"""The page of a film: one file of HTML with the proved simulator as WebAssembly, a run's script, its deck and its panel. Nothing is
recorded in it: opening it performs the script."""

from __future__ import annotations

import base64
import hashlib
import html
import json
import os
import re
import shlex
import zlib
from typing import Any, Dict, Mapping, NamedTuple, Optional

from ...language.display_code import SYMBOLS
from ...language.notation import TAB
from ...language.sources import Source
from ...run import conditions, sentences
from ...run.forms import MODES, STATES
from ...run.names import AllSymbols
from ...run.turn import BLOCK_GOES_ON, COMPLETES, WAITS_FOR
from ...shell.options import simulator
from ..keys import for_page
from .joining import joined_with_shared

WEB = os.path.join(os.path.dirname(os.path.abspath(__file__)), "web")
FIRST = {"engine": ("engine", "worker.js"), "view": ("main.js",)}  # modules of the worker and of the page


class Files(NamedTuple):
    """What a run is given: the bytes of its script, its deck and its panel."""

    script: bytes
    deck: bytes = b""
    panel: bytes = b""


def page(title: str, module: bytes, about: Dict[str, Any]) -> str:
    """Returns the page; `module` is the simulator, and `about` what the page has to know, as JSON takes it. What the browser keeps
    of it is kept under the checksum of `about`."""
    data = json.dumps({**about, "title": title}, separators=(",", ":")).encode("ascii")
    scripts = dict(zip(("shared", *FIRST), joined_with_shared(*(os.path.join(WEB, *place) for place in FIRST.values()))))
    first = f"\n{web('first.js')}\n"
    style = packed(web("page.css").encode("utf-8"))
    parts = {"title": html.escape(title), "sum": hashlib.sha256(data).hexdigest()[:16], "first": first, "style": style,
             "checksums": " ".join(f"'sha256-{checksum(script)}'" for script in (first, scripts["shared"] + scripts["view"])),
             "film": packed(data, True),
             "simulator": packed(module), **{name: packed(script.encode("utf-8")) for name, script in scripts.items()}}
    return re.sub(r"<!--(\w+)-->|/\*--(\w+)--\*/", lambda mark: parts[mark[1] or mark[2]], web("page.html")) + "\n"


def checksum(script: str) -> str:
    """Returns what a browser compares with a script that it is allowed to run."""
    return base64.b64encode(hashlib.sha256(script.encode("utf-8")).digest()).decode("ascii")


def web(name: str) -> str:
    with open(os.path.join(WEB, name), encoding="utf-8") as file:
        return file.read().rstrip()


def packed(data: bytes, is_film: bool = False) -> str:
    """Returns bytes as first.js unpacks them: deflated, the film in base 64 as a saved page writes it, all else in the shorter base
    85, without the < that could end it."""
    deflated = zlib.compress(data, 9)
    text = (base64.b64encode(deflated) if is_film else base64.a85encode(deflated).replace(b"<", b"v")).decode("ascii")
    return "\n".join(text[at:at + 120] for at in range(0, len(text), 120))


# ---- what the page has to know

def tables() -> Dict[str, Any]:
    """Returns what it has to know of every machine: the one table of instructions, and the sentences about turns."""
    return {"symbols": SYMBOLS,
            "modes": {"reader": MODES["CR MODE"], "printer": MODES["LP MODE"]},
            "states": list(zip(STATES, ("inactive", "empty", "full", "function"))), "waits_for": WAITS_FOR,
            "goes_on_in": {"instruction": COMPLETES, "block": BLOCK_GOES_ON},
            "meanings": meanings(), "keys": for_page(), "condition": conditions.FORM,
            "sentences": {"of": {code.rjust(2, "0") if code[0] != "b" else f"b{code[1:]:>02}": rows
                                 for code, rows in sentences.ROWS.items()},
                          "waits": sentences.WAITS, "waits_ever": sentences.WAITS_EVER}}


def meanings() -> Dict[str, str]:
    """Returns what each instruction and directive does, by its name, in the words of the pages; and by 3x, 4x and 5x what x is in
    the codes that begin with this digit."""
    found: Dict[str, str] = {}
    for names, text in (line.split(" | ", 1) for line in web("meanings.txt").splitlines()):
        found.update({name: "\n".join(filter(None, (found.get(name), text))) for name in names.split()})
    return found


def options(asked: Any, devices: Mapping[int, str] = {}) -> Dict[str, Any]:
    """Returns the options of the machine, with the names of the devices on its channels."""
    reader, printer = int(asked.reader or "12", 8), int(asked.printer or "13", 8)
    return {"history": int(asked.history or "10000"), "central": 1024 * int(asked.central or "128"), "reader": reader,
            "printer": printer, "devices": {reader: "card reader", printer: "printer", **devices}}


def run(asked: Any, files: Files) -> Dict[str, Any]:
    """Returns the files of a run with their names, their bytes as characters, and how one performs them with the program."""
    names: Dict[str, str] = {}
    rows = []
    for kind, data in zip(Files._fields, files):
        path = getattr(asked, kind)
        name = readable(os.path.basename(path or "")) or kind
        if kind == "script" or path is not None:
            names[kind] = f"{kind}-{name}" if name in names.values() else name
            rows.append({"kind": kind, "name": names[kind], "bytes": data.decode("latin-1")})
    return {"files": rows, "again": " ".join(map(shlex.quote, ["pp6600", *simulator(asked, names)[1:], names["script"]]))}


def of_symbols(symbols: AllSymbols) -> Dict[str, Any]:
    """Returns the labels of each processor that has some, and the lines and words of the sources."""
    labels = {number: {**table, "entries": list(symbols.of[number].entries()),
                       "addresses": symbols.of[number].names.numbers()}
              for number, table in symbols.tables().items()}
    sources = {number: source_of(source) for number, source in symbols.sources()}
    return {"labels": labels, **({"sources": sources} if sources else {})}


def source_of(source: Source) -> Dict[str, Any]:
    """Returns the lines of a source; and of each row of the listing that has words its line, its location, its origin and these."""
    rows = [(row.number, row.location, row.origin, *row.words) for row in source.program.rows if row.words]
    texts = {row.number: row.text for row in source.program.rows if not row.is_made}
    lines = [texts.get(number, "").expandtabs(TAB) for number in range(1, max(texts) + 1)]
    return {"name": readable(os.path.basename(source.path)), "lines": lines, "rows": rows}


def readable(text: str) -> str:
    """Returns a word of the command line without what is not UTF-8."""
    return text.encode("utf-8", "surrogateescape").decode("utf-8", "replace")


def heading(title: Optional[str], script: Optional[str]) -> str:
    """Returns the heading of a page: the title that was asked for, or else the name of the script's file; if this is `script`, that
    of its folder."""
    folder, name = os.path.dirname(os.path.abspath(script or "")), os.path.basename(script or "") or "standard input"
    return readable(title or (os.path.basename(folder) if name == "script" else "") or name)
