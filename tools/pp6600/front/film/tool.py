"""The tool that makes a film: a run as one web page, from which one goes on."""

from ...devices.options import DEVICE_OPTIONS, devices_of, script_with
from ...language.symbol_options import SYMBOL_OPTIONS, symbols_of
from ...run.attached import names_of
from ...run.past import name_of
from ...run.tape import NOTE_OF_DEVICE
from ...shell.command_line import SCRIPT_WORD, Failure, arguments, bytes_of, octal, simulator
from ...shell.installation import page_module
from ...shell.script import performed
from ...shell.text_files import lines_of, write_whole
from .device_pictures import pictures_of
from .page import Files, heading, of_symbols, options, page, run, tables

DESCRIPTION = """Makes a film of a run: one web page with the proved simulator in it, which needs no network and no server. Opening
it performs the script, with its steps back; each turn, and each other line that does something, is a moment of the film. What is
typed in the page goes on from there."""


def main() -> int:
    parser = arguments(DESCRIPTION)
    parser.add_argument("-o", "--output", metavar="FILE.html", required=True, help="the page to write")
    parser.add_argument("--around", metavar="N", type=octal, help="open after turn N, octal")
    parser.add_argument("--title", metavar="TEXT", help="the heading of the page (else the name of the script's file or folder)")
    asked = parser.parse(SYMBOL_OPTIONS, DEVICE_OPTIONS, SCRIPT_WORD)
    if not asked.output:
        raise Failure("--output needs the name of a file")
    symbols, devices, words = symbols_of(asked), devices_of(asked), simulator(asked)
    loading = "".join(f"{line}\n" for line in symbols.loading(()))
    script = loading.encode() + bytes_of(asked.script)
    saved = {note[1] for note in map(NOTE_OF_DEVICE.fullmatch, lines_of(script.decode("latin-1"))) if note}  # names of devices
    silent = [device for device in devices if name_of(device) not in saved]  # no reply of theirs is in the script
    if silent:
        script, refusals = script_with(words, silent, script)
    lines = lines_of(script.decode("latin-1"))
    done, refused = performed(words, lines)
    highest = done.tape.turns
    if asked.around is not None and asked.around > highest:
        raise Failure(f"there is no turn {asked.around:o}: the highest is {highest:o} (octal)")
    files = Files(script, *(b"" if path is None else bytes_of(path) for path in (asked.deck, asked.panel)))
    about = {**tables(), **options(asked, names_of(devices)), **run(asked, files), **of_symbols(symbols), "opens": asked.around,
             **pictures_of(words, devices, lines)}
    write_whole(asked.output, page(heading(asked.title, asked.script), page_module(), about).encode("utf-8"))
    return (refusals if silent else refused).status()
