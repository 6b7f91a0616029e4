"""The agent's folder: the files that it brought, the trial's name, and the status file by which it is told."""
from __future__ import annotations

import os
from dataclasses import dataclass
from typing import Dict, Optional, Tuple

from .files import GOOD_NAME, read_folder, write_whole

Signature = Tuple[Tuple[str, int, int, int], ...]


@dataclass(frozen=True)
class Trial:
    """A trial's name without its line feed, with the file's inode and time: the same name may be written once more, for another trial."""

    name: bytes
    inode: int
    written: int


@dataclass(frozen=True)
class Seen:
    """The area of configuration files at a moment."""

    files: Dict[str, bytes]
    # Links with good names that lead nowhere
    lost: Tuple[str, ...]
    signature: Signature
    trial: Optional[Trial]
    # Whether files were brought since that name was written: the agent writes the name first, and then the files.
    brought: bool

    def is_as(self, other: Optional[Seen]) -> bool:
        """Nothing was brought in between, and the trial is the same."""
        return other is not None and (self.signature, self.trial, self.brought) == (other.signature, other.trial, other.brought)


class AgentFolder:
    """The folder that the agent runs in."""

    def __init__(self, path: str) -> None:
        self.config = os.path.join(path, "opamp.d", "config")
        self.status = os.path.join(path, "opamp.d", "status")
        self.last: Optional[Seen] = None

    def look(self) -> Optional[Seen]:
        """The area as it is, or None where it changed meanwhile."""
        trial, signature = self._trial(), self._signature()
        if signature is None:
            return None
        brought = bool(signature) and signature[0][3] >= (trial.written if trial else 0)
        if self.last and self.last.signature == signature:
            files = self.last.files
        else:
            files = read_folder(self.config)
            if self._signature() != signature:
                return None
        lost = tuple(name for name, *_ in signature[1:] if name not in files)
        self.last = Seen(files, lost, signature, trial, brought)
        return self.last

    def tell(self, message: bytes) -> None:
        """Writes the status file whole."""
        os.makedirs(self.status, exist_ok=True)
        write_whole(os.path.join(self.status, "status.pb"), message)

    def is_told(self) -> bool:
        """Whether there is a status file."""
        return os.path.exists(os.path.join(self.status, "status.pb"))

    def _trial(self) -> Optional[Trial]:
        try:
            with open(os.path.join(self.status, "trial"), "rb") as file:
                content, stat = file.read(), os.fstat(file.fileno())
        except FileNotFoundError:
            return None
        return Trial(content[:-1] if content.endswith(b"\n") else content, stat.st_ino, stat.st_mtime_ns)

    def _signature(self) -> Optional[Signature]:
        """The folder and its files, with what changes whenever a file is written in the agent's way.

        It is empty where there is no folder, and None where a file vanished meanwhile.
        """
        try:
            told = [("", 0, 0, os.stat(self.config).st_mtime_ns)]
            scanned = os.scandir(self.config)
        except FileNotFoundError:
            return ()
        with scanned as entries:
            for entry in entries:
                if GOOD_NAME.fullmatch(entry.name):
                    stat = _stat(entry)
                    if stat is None:
                        return None
                    told.append((entry.name, stat.st_ino, stat.st_size, stat.st_mtime_ns))
        return tuple(sorted(told))


def _stat(entry: os.DirEntry[str]) -> Optional[os.stat_result]:
    """What the entry is, or the link itself where that leads nowhere; None where it is gone."""
    for follow in (True, False):
        try:
            return entry.stat(follow_symlinks=follow)
        except FileNotFoundError:
            continue
    return None
