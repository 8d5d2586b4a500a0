"""The option --device: a device of one's own, by its name, or by its file and its class, on a channel or of central memory."""

import importlib
import os
import sys
import types
from argparse import Namespace
from typing import Any, Dict, List, Optional, Sequence, Tuple, Type

from .. import devices
from ..failure import Failure
from ..run.device import CompanionDevice, Device
from ..run.forms import CHANNELS
from ..run.session import Session
from ..run.tape import numbered
from ..shell.options import Arguments, simulator, up_to
from ..shell.script import Refusals, performed
from ..shell.text_files import bytes_of, lines_of, script_lines

FORM = "NAME[:WORD,..]@CHANNEL"
CENTRAL = "C"  # in the place of a channel, for a device of central memory
OTHERS = {"__init__", "controller", "converter", "options", "pictures", "tape_file"}  # modules that are no device
NAMES = sorted({name[:-len(".py")] for name in os.listdir(os.path.dirname(__file__)) if name.endswith(".py")} - OTHERS)

DEVICE_OPTIONS: Arguments = [("--device", {
    "metavar": FORM, "action": "append", "default": [],
    "help": f"put a device on a channel: {', '.join(NAMES)}, or FILE.py:CLASS; its constructor gets the words; for each one"})]


def devices_of(asked: Namespace) -> List[CompanionDevice]:
    """Returns the devices that a command line names. Equipments on one channel are behind one controller."""
    if not asked.device:
        return []  # as most command lines do, for which these need not be read
    from .controller import Controller
    from .converter import Converter
    on_channels: Dict[Optional[int], List[CompanionDevice]] = {}
    for device in map(device_of, asked.device):
        on_channels.setdefault(device.channel, []).append(device)
    found: List[CompanionDevice] = []
    for channel, those in on_channels.items():
        equipments = [one for one in those if isinstance(one, Converter)]
        found += [Controller(*equipments, channel=channel)] if channel is not None and len(equipments) == len(those) > 1 else those
    return found


def timeline(words: Sequence[str], attached: Sequence[CompanionDevice]) -> Session:
    """Returns a session that goes back without a limit, with these devices if there are any."""
    if not attached:
        return Session(words)
    from ..run.attached import Attached  # few sessions have devices
    return Attached(words, attached)


def replayed(asked: Namespace, symbols: Any, path: Optional[str], turn: Optional[int] = None) -> Tuple[Session, Refusals]:
    """Performs the script of a command line, after the lines that load its sources. Returns a simulator before the actions that are
    in effect at its end, or after a turn with the settings before the next one; and the lines that were refused."""
    devices = devices_of(asked) if getattr(asked, "device", None) else []
    done, refusals = performed(simulator(asked), numbered(symbols.loading(script_lines(path))), devices)
    tape = done.in_effect()
    if turn is not None:
        tape.cut(tape.after_turn(turn))
    run = done.search(tape)
    run.pasts = getattr(done, "pasts", ())
    return run, refusals


def script_with(words: Sequence[str], attached: Sequence[CompanionDevice], script: bytes) -> Tuple[bytes, Refusals]:
    """Performs a script, given as bytes, with devices. Returns the script for the simulator alone that gives the same session, as
    bytes too, and the lines that were refused."""
    done, refusals = performed(words, lines_of(script.decode("latin-1")), attached)
    return "".join(f"{line}\n" for line in done.sent).encode("latin-1"), refusals


def device_of(text: str) -> CompanionDevice:
    """Returns the device that an option names."""
    named, _, channel = text.rpartition("@")
    if not (named and channel):
        raise Failure(f"--device {text} names no channel: it is {FORM}")
    try:
        return made(named, None if channel.upper() == CENTRAL else up_to(channel, CHANNELS - 1, "channel"))
    except Failure as failure:
        raise Failure(f"--device {text}: {failure}") from failure


def made(named: str, channel: Optional[int]) -> CompanionDevice:
    """Returns the device of a name with its words, on a channel; without one it is of central memory."""
    from ..run.central_device import CentralDevice
    name, _, words = named.partition(":")
    if name.endswith(".py"):
        of_file, _, words = words.partition(":")
        if ":" not in named:
            raise Failure(f"{name} needs the name of a class, as {name}:CLASS")
        kind = class_of_file(name, of_file)
    else:
        kind = class_of_package(name)
    if issubclass(kind, CentralDevice) != (channel is None):
        raise Failure(f"{kind.__name__} is a device of "
                      f"{'a channel: write @CHANNEL' if channel is None else 'central memory: write @C'}")
    try:
        by_name = named_words(kind, words)
        device = kind(*(word for word in words.split(",") if words and word.partition("=")[0] not in by_name), **by_name)
        device.channel = channel
    except Failure:
        raise
    except Exception as error:
        raise Failure(f"{kind.__name__} can't be made: {type(error).__name__}: {error}") from error
    return device


def named_words(kind: Type[CompanionDevice], words: str) -> Dict[str, str]:
    """Returns the words NAME=VALUE, whose NAME is one of the constructor's."""
    import inspect
    known = inspect.signature(kind).parameters
    return {name: value for name, is_named, value in (word.partition("=") for word in words.split(",")) if is_named
            and name in known}


def class_of_package(name: str) -> Type[CompanionDevice]:
    """Returns the class of a device of the package: the one that its module defines."""
    if name not in NAMES:
        raise Failure(f"there is no device {name}; there are {', '.join(NAMES)}, and FILE.py:CLASS")
    module = importlib.import_module(f"{devices.__name__}.{name}")
    found: Type[CompanionDevice] = next(one for one in vars(module).values() if is_device(one)
                                        and one.__module__ == module.__name__)
    return found


def class_of_file(path: str, name: str) -> Type[CompanionDevice]:
    """Returns the class of a device in a file."""
    module = module_of(path)
    if not hasattr(module, name):
        raise Failure(f"{path} has no {name}")
    kind: Type[CompanionDevice] = getattr(module, name)
    if not is_device(kind):
        raise Failure(f"{name} in {path} is not a subclass of Device")
    return kind


def is_device(kind: Any) -> bool:
    from ..run.central_device import CentralDevice
    return isinstance(kind, type) and issubclass(kind, CompanionDevice) and kind not in (CompanionDevice, Device, CentralDevice)


def module_of(path: str) -> types.ModuleType:
    """Returns the module of a file, which is performed for it."""
    module = types.ModuleType(f"device in {path}")
    module.__file__ = path
    sys.modules[module.__name__] = module  # a dataclass looks for it there
    try:
        exec(compile(bytes_of(path), path, "exec", dont_inherit=True), vars(module))
    except Failure:
        raise
    except SyntaxError as error:
        raise Failure(f"{path} is not Python: line {error.lineno} (decimal): {error.msg}") from error
    except (Exception, SystemExit) as error:
        raise Failure(f"{path} fails: {type(error).__name__}: {error}") from error
    return module
