#!/usr/bin/env python3
"""A disk of one spindle on channel 6, a device of one's own with a state that is large: position, read, write and status.

    examples/disk/disk.py ./pp6600 IMAGE <SCRIPT
    tools/talk --device examples/disk/disk.py:Disk:IMAGE@6 SCRIPT

Its codes are this example's own; a real disk had others, and a converter or a controller before it.

    1000 + T   position: to track T, 000 to 177; while the arms move, the status has 0002
    2000 + S   read sector S of the track, 00 to 37: 100 (octal) words, then the channel becomes inactive
    3000 + S   write sector S: 100 words, or fewer and zeros, up to the program's DCN
    4000       status: 0001 ready, 0002 the arms move, 0004 the last code had no such track or sector; bits 3 to 11 are the track

A code that is given while the arms move stays on the channel until they have come to rest. IMAGE is a file of bytes, two words in
three, the upper bits first; without one the disk is blank. It is read at the beginning and never written: `disk.save(state, path)`
does.
"""

import os
import sys
from typing import NamedTuple, Optional, Tuple

sys.path.append(os.path.join(os.path.dirname(os.path.realpath(__file__)), "..", "..", "tools"))  # or the variable PYTHONPATH
from pp6600 import EMPTY, INACTIVE, NOTHING, Attached, Device, Failure, full

POSITION, READ, WRITE, STATUS = 0o1000, 0o2000, 0o3000, 0o4000
KIND, OPERAND = 0o7000, 0o777  # of a code
TRACKS, SECTORS, WORDS = 0o200, 0o40, 0o100
READY, MOVES, WRONG, TRACK_AT = 0o1, 0o2, 0o4, 3  # of the status word
TURNS_OF_TRACK, TURNS_OF_START = 0o100, 0o1000  # that the arms take: for each track, and to begin
BLANK = (0,) * WORDS
Sector = Tuple[int, ...]
Track = Tuple[Sector, ...]


class State(NamedTuple):
    """The tracks, where the arms are, and what is done. A track or a sector without words that were written is shared by all."""

    tracks: Tuple[Track, ...]
    track: int = 0
    code: int = 0  # in effect
    waiting: Optional[int] = None  # a code that came while the arms moved
    rests_at: int = 0  # the turn at which the arms come to rest
    is_wrong: bool = False
    place: int = 0  # of the next word of the sector that is read
    words: Sector = ()  # that are written

    @property
    def sector(self) -> int:
        return self.code & OPERAND


class Disk(Device):
    """A disk unit."""

    channel = 0o6

    def __init__(self, image=""):
        """The image is the name of a file; without one the disk is blank."""
        self.start = State(tracks_of(words_of_file(image) if image else []))

    def function(self, state, event):
        if event.turn < state.rests_at and event.word != STATUS:
            return state._replace(waiting=event.word), NOTHING.waking(state.rests_at - event.turn)
        return self.performed(state, event.word, event.turn)

    def due(self, state, event):
        """Performs the code that waited for the arms."""
        if state.waiting is None:
            return state, NOTHING
        return self.performed(state._replace(waiting=None), state.waiting, event.turn)

    def performed(self, state, code, turn):
        """Performs a function code."""
        kind, operand = code & KIND, code & OPERAND
        if code == STATUS:
            return state._replace(code=code), INACTIVE
        if kind == POSITION and operand < TRACKS:
            return self.moved(state, operand, turn), INACTIVE
        if kind in (READ, WRITE) and operand < SECTORS:
            return state._replace(code=code, place=0, words=(), is_wrong=False), INACTIVE
        if kind in (POSITION, READ, WRITE):
            return state._replace(code=0, is_wrong=True), INACTIVE
        return state, NOTHING

    @staticmethod
    def moved(state, track, turn):
        """Begins to move the arms to a track."""
        distance = abs(track - state.track)
        turns = TURNS_OF_START + distance * TURNS_OF_TRACK if distance else 0
        return state._replace(code=0, track=track, rests_at=turn + turns, is_wrong=False)

    def activated(self, state, event):
        """Gives the status word, or begins to read."""
        if state.code == STATUS:
            return state, full(self.status(state, event.turn))
        return self.taken(state, event)

    @staticmethod
    def status(state, turn):
        moves = MOVES if turn < state.rests_at else READY
        return moves | (WRONG if state.is_wrong else 0) | state.track << TRACK_AT

    def taken(self, state, event):
        """Gives the next word of the sector; after the last one makes the channel inactive."""
        if state.code & KIND != READ:
            return state, NOTHING
        if state.place == WORDS:
            return state._replace(code=0), INACTIVE
        return state._replace(place=state.place + 1), full(state.tracks[state.track][state.sector][state.place])

    def word(self, state, event):
        """Takes a word that is written. After the last one of a sector the next word stays on the channel."""
        if state.code & KIND != WRITE or len(state.words) == WORDS:
            return state, NOTHING
        return state._replace(words=(*state.words, event.word)), EMPTY

    def disconnected(self, state, event):
        """Writes the sector."""
        if state.code & KIND != WRITE:
            return state._replace(code=0), NOTHING
        sector = state.words + BLANK[len(state.words):]
        track = replaced(state.tracks[state.track], state.sector, sector)
        return state._replace(tracks=replaced(state.tracks, state.track, track), code=0, words=()), NOTHING

    @staticmethod
    def save(state, path):
        """Writes what is on the disk into a file."""
        words = [word for track in state.tracks for sector in track for word in sector]
        with open(path, "wb") as file:
            file.write(bytes.fromhex("".join(f"{word:03x}" for word in words)))


def replaced(items, at, item):
    """Returns a tuple with another item at a place."""
    return (*items[:at], item, *items[at + 1:])


def words_of_file(path):
    """Returns the words of an image."""
    with open(path, "rb") as file:
        digits = file.read().hex()
    if len(digits) % 3 or len(digits) // 3 > TRACKS * SECTORS * WORDS:
        raise Failure(f"{path} is no image of a disk: it is no whole number of words, or has too many")
    return [int(digits[at:at + 3], 16) for at in range(0, len(digits), 3)]


def tracks_of(words):
    """Returns the tracks with these words at their beginning, and zeros behind them."""
    blank_track = (BLANK,) * SECTORS
    tracks = [blank_track] * TRACKS
    for first in range(0, len(words), WORDS):
        sector = tuple(words[first:first + WORDS])
        track, place = divmod(first // WORDS, SECTORS)
        tracks[track] = replaced(tracks[track], place, sector + BLANK[len(sector):])
    return tuple(tracks)


def main():
    """Performs a script with the disk, and shows the answers."""
    session = Attached(sys.argv[1:2], [Disk(*sys.argv[2:])])
    for line in sys.stdin.read().splitlines():
        print(*[f"> {line}", *session.act(line)], sep="\n")
    sys.exit(session.end())


if __name__ == "__main__":  # not if a tool reads this file
    main()
