"""What the collector writes. It goes to a file, so that the collector lives on where this program is killed, and from there on to standard error."""
from __future__ import annotations

import contextlib
import os
import re
from typing import BinaryIO

from .messages import plain

# The file is emptied above this.
FILE_BYTES = 1 << 20
# So much of what was written since a start or a reload is looked at for the collector's own words.
KEPT_BYTES = 1 << 14
TELLING = re.compile(r"error|fatal|panic|fail|can't|cannot|refused|denied", re.IGNORECASE)


class Output:
    """The file of the collector's output, read as it grows."""

    def __init__(self, path: str, out: BinaryIO) -> None:
        self.path, self.out, self.kept = path, out, b""
        self.at = os.path.getsize(path) if os.path.exists(path) else 0

    def opened(self) -> int:
        """The file as a collector writes to it: always at its end."""
        return os.open(self.path, os.O_WRONLY | os.O_CREAT | os.O_APPEND, 0o640)

    def begin(self) -> None:
        """What comes from now on belongs to another start or reload."""
        self.pass_on()
        self.kept = b""

    def pass_on(self) -> None:
        """Passes on what came."""
        try:
            with open(self.path, "rb") as file:
                file.seek(self.at)
                came = file.read(FILE_BYTES)
            self.at += len(came)
            if self.at > FILE_BYTES:
                os.truncate(self.path, 0)
                self.at = 0
        except OSError:
            return
        if came:
            self.kept = (self.kept + came)[-KEPT_BYTES:]
            with contextlib.suppress(OSError):
                self.out.write(came)
                self.out.flush()

    def words(self) -> str:
        """The last lines that sound like an error, or else the last ones."""
        self.pass_on()
        lines = plain(self.kept.decode(errors="replace"), KEPT_BYTES).split("\n")
        return last_lines([line for line in lines if TELLING.search(line)] or lines, 700)


def last_lines(lines: list[str], limit: int) -> str:
    """As many of the last lines as have at most so many bytes; of a single longer line its front."""
    kept = plain(lines[-1], limit) if lines else ""
    for line in reversed(lines[:-1]):
        if len((line + "\n" + kept).encode()) > limit:
            break
        kept = line + "\n" + kept
    return kept
