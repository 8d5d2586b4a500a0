"""Archives whose bytes are those of their contents alone. Nothing in them is compressed, for each version of a compressor, and of
Python, would write other bytes."""

import io
import struct
import zipfile
import zlib
from typing import Mapping, Sequence, Tuple

LONGEST = 65535  # bytes of a stored block of deflate
HEAD = bytes([0x1F, 0x8B, 8, 0, 0, 0, 0, 0, 0, 255])  # of gzip: deflated, without a name, a time and a system
EARLIEST = (1980, 1, 1, 0, 0, 0)  # the first time that a zip archive can have


def gzipped(data: bytes) -> bytes:
    """Returns data in gzip's form."""
    starts = range(0, len(data), LONGEST) or [0]
    blocks = [struct.pack("<?HH", start == starts[-1], size, size ^ 0xFFFF) + data[start:start + size]
              for start in starts for size in [min(LONGEST, len(data) - start)]]
    return b"".join([HEAD, *blocks, struct.pack("<II", zlib.crc32(data), len(data) & 0xFFFFFFFF)])


def zipped(files: Mapping[str, Tuple[bytes, bool]], time: Sequence[int] = EARLIEST) -> bytes:
    """Returns a zip archive of files by their names, each with its bytes and whether it is a program, in the order of their
    names."""
    written = io.BytesIO()
    with zipfile.ZipFile(written, "w", zipfile.ZIP_STORED) as archive:
        for name, (data, runs) in sorted(files.items()):
            year, month, day, hour, minute, second = time
            entry = zipfile.ZipInfo(name, (year, month, day, hour, minute, second))
            entry.create_system, entry.external_attr = 3, (0o100755 if runs else 0o100644) << 16  # Unix
            archive.writestr(entry, data)
    return written.getvalue()
