"""Tests the packages for Debian and for pip: the transcripts of tests/packages."""

from tests.support import add_tests
from tests.transcripts import TranscriptCase, transcripts


class Packages(TranscriptCase):
    """Without the commands that one needs it is skipped."""


add_tests(Packages, Packages.check, transcripts("packages"))
