"""Sets of configuration files: kept whole below the program's own folder, one of them in the collector's place, one of them known to work.

The collector's place is a link to the folder of a set, so that all files of a set change at once.
"""
from __future__ import annotations

import hashlib
import os
import shutil
from typing import Dict, Iterable, Mapping, Optional

from .files import read_folder, read_or_none, sync_folder, write_whole
from .problems import NotHere, reason


def digest_of(files: Mapping[str, bytes]) -> str:
    """A name for this set of files, by their names and bodies."""
    told = hashlib.sha256()
    for name in sorted(files):
        for piece in (name.encode(), files[name]):
            told.update(len(piece).to_bytes(8, "big") + piece)
    return told.hexdigest()


class Sets:
    """The sets below the own folder, and the link at the collector's place."""

    def __init__(self, own: str, place: str) -> None:
        self.folder, self.place, self.good_file = os.path.join(own, "sets"), place, os.path.join(own, "good")
        # The set that worked last, and what the file says of it for a next life, which is another one where it couldn't be written.
        self.good: Optional[str] = None
        self.noted: Optional[str] = None

    def open(self) -> None:
        """Makes what isn't there, and finds the set that worked."""
        os.makedirs(self.folder, exist_ok=True)
        os.makedirs(os.path.dirname(self.place), exist_ok=True)
        if os.path.isdir(self.place) and not os.path.islink(self.place):
            try:
                os.rmdir(self.place)
            except OSError as why:
                raise NotHere(f"{self.place} is no link, and can't be taken away: {reason(why)}") from None
        elif os.path.exists(self.place) and not os.path.islink(self.place):
            raise NotHere(f"{self.place} is a file, and no place for files")
        told = (read_or_none(self.good_file) or b"").decode(errors="replace").strip()
        self.good = self.noted = told if told and self.is_whole(told) else None

    def path(self, digest: str) -> str:
        return os.path.join(self.folder, digest)

    def files(self, digest: Optional[str]) -> Dict[str, bytes]:
        return read_folder(self.path(digest)) if digest else {}

    def is_whole(self, digest: str) -> bool:
        return os.path.isdir(self.path(digest)) and digest_of(self.files(digest)) == digest

    def keep(self, files: Mapping[str, bytes]) -> str:
        """Keeps the files as a set, whole and synced, and gives its name."""
        digest = digest_of(files)
        if self.is_whole(digest):
            return digest
        new = self.path(".new")
        for path in (new, self.path(digest)):
            shutil.rmtree(path, ignore_errors=True)
        os.mkdir(new)
        for name, body in files.items():
            with open(os.path.join(new, name), "wb") as out:
                out.write(body)
                out.flush()
                os.fsync(out.fileno())
        sync_folder(new)
        os.rename(new, self.path(digest))
        sync_folder(self.folder)
        return digest

    def put(self, digest: str) -> None:
        """Puts the set in the collector's place."""
        new = self.place + ".new"
        if os.path.lexists(new):
            os.unlink(new)
        os.symlink(os.path.abspath(self.path(digest)), new)
        os.replace(new, self.place)
        sync_folder(os.path.dirname(self.place))

    def prove(self, digest: str) -> None:
        """This set works: the collector goes back to it from now on."""
        self.good = digest
        if digest != self.noted:
            write_whole(self.good_file, digest.encode() + b"\n")
            self.noted = digest

    def forget_others(self, kept: Iterable[Optional[str]]) -> None:
        """Removes the sets that nobody needs."""
        needed = {*kept, self.good, self.noted}
        if os.path.islink(self.place):
            needed.add(os.path.basename(os.readlink(self.place)))
        for name in os.listdir(self.folder):
            if name not in needed:
                shutil.rmtree(self.path(name), ignore_errors=True)
