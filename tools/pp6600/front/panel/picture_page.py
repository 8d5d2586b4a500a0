"""The page of what devices of one's own show. The keys that send lines do so here too: the pictures follow the run."""

from typing import Any, Iterator, List, Tuple

from ...devices.pictures import Picture, braille
from ...run.device import CompanionDevice, DeviceFailure, drawn
from ..keys import PANEL
from .key_lines import LINES
from .logged_session import LoggedSession
from .screen import Screen
from .text import MarkedLine
from .text_page import TextPage


def devices_that(session: LoggedSession, method: str) -> List[Tuple[int, CompanionDevice]]:
    """Returns the numbers of the devices of a session whose class has a method of its own, and the devices."""
    devices = enumerate(getattr(session.simulator, "devices", ()))
    return [(number, device) for number, device in devices if getattr(type(device), method) is not getattr(CompanionDevice, method)]


def line_of(text: str) -> MarkedLine:
    """Returns a line of a text that is not all ASCII."""
    line = MarkedLine()
    line.text = text
    return line


class PicturePage(TextPage):
    passes = {*(key for key, action in PANEL.items() if action in LINES), *"01234567"}

    def __init__(self, panel: Any) -> None:
        super().__init__("", [], closes="v")
        self.panel, self.devices = panel, devices_that(panel.session, "picture")

    def texts(self, columns: int, rows: int) -> Iterator[str]:
        """Yields the lines of all pictures, each as large as it can be seen whole."""
        def draw(picture: Picture) -> List[str]:
            if not picture.screens:
                return picture.last_lines(max((rows - 3) // len(picture.pages) - 1, 1))
            return braille(picture, min(columns, (2 * (rows - 3) + 1) * len(picture.screens) - 1))

        for number, device in self.devices:
            yield f"{type(device).__name__} {'of central memory' if device.channel is None else f'on channel {device.channel:02o}'}"
            try:
                yield from drawn(device, self.panel.session.simulator.state(number), draw) or ()
            except DeviceFailure as failure:
                yield str(failure)

    def bottom(self, height: int) -> str:
        return self.panel.message or "s, b and other keys that step do so here; v, Escape or Enter closes this page"

    def screen(self, columns: int, rows: int) -> Screen:
        self.title = f"Turn {self.panel.session.simulator.turn:o}"
        self.lines = list(map(line_of, self.texts(columns, rows)))
        return super().screen(columns, rows)
