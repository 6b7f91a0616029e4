"""What the words given say, as the rest of the program takes it."""
from __future__ import annotations

import shlex
from dataclasses import dataclass
from typing import List, Tuple


@dataclass(frozen=True)
class Times:
    """All in seconds."""

    # Files that didn't change for so long are all there.
    quiet: float
    # A collector that is healthy for so long, without a break, works.
    steady: float
    # So long a start or a reload may take until the collector is healthy.
    patience: float
    # So long a check or a reload by a command or URL may take.
    check: float
    # So long it may take to end behind SIGTERM.
    stop: float
    # One question for its health may take so long, and between two of them passes so much.
    health: float = 5
    every: float = 2
    # The pause before another start: the first, and the longest. A life that was healthy and lasted `lived` begins anew.
    pause: float = 0.5
    longest: float = 30
    lived: float = 10


@dataclass(frozen=True)
class Settings:
    """Paths are absolute."""

    folder: str
    own: str
    place: str
    run: str
    check: str
    reload: str
    health: str
    default: str
    name: str
    attributes: Tuple[Tuple[str, str], ...]
    capabilities: int
    times: Times


def words_of(command: str, files: str, own: str) -> List[str]:
    """The words of a command, quoted as a shell has them, with the two folders in their places."""
    return [word.replace("{files}", files).replace("{own}", own) for word in shlex.split(command)]
