"""Where a wanted state comes from: a folder, or keys in etcd. Both have the same paths: the table, and the files that it names."""
from __future__ import annotations

import os
import threading
import time
from typing import Callable, Dict, Optional, Protocol, Tuple

from .etcd import Etcd, Keys
from .offers import contents
from .problems import NotHere, NotRight, Problem, reason
from .wanted import TABLE, WantedState, named_paths, read_wanted

STILL = 0.3         # seconds for which a folder is as it was, so that a checkout under way isn't taken in half
MOST_READINGS = 20
POLL = 5.0          # seconds between two questions to etcd, where a watch tells nothing
RENEWED = 1.0       # seconds until a watch that was lost is begun anew


class Source(Protocol):
    """Where a wanted state comes from."""

    def read(self) -> WantedState:
        """The state as it stands now. A Problem where it can't be had or isn't right."""

    def may_have_changed(self) -> bool:
        """Whether it is worth asking `is_as_read`."""

    def is_as_read(self) -> bool:
        """Whether it still stands as it was read last."""

    def wait(self, seconds: float) -> None:
        """Waits so long, or until the state may have changed."""

    def close(self) -> None:
        """Ends what was begun."""


class Folder:
    """A folder with the table and its files."""

    def __init__(self, path: str, pause: Callable[[float], None] = time.sleep) -> None:
        self.path = path
        self._pause = pause
        self._seen: Dict[str, Optional[Tuple[int, int, int]]] = {}
        self.files: Dict[str, bytes] = {}  # as they were read last

    def __str__(self) -> str:
        return self.path

    def read(self) -> WantedState:
        self.files = self._found()
        for _ in range(MOST_READINGS):
            self._pause(STILL)
            former, self.files = self.files, self._found()
            if self.files == former:
                return read_wanted(self.files)
        raise NotRight(f"{self.path} changes all the time")

    def may_have_changed(self) -> bool:
        return True

    def is_as_read(self) -> bool:
        return all(self._sign(name) == sign for name, sign in self._seen.items())

    def wait(self, seconds: float) -> None:
        self._pause(seconds)

    def close(self) -> None:
        """Nothing was begun."""

    def _found(self) -> Dict[str, bytes]:
        """What stands in the folder now, of the table and of the files that it names and that are there."""
        self._seen = {TABLE: self._sign(TABLE)}
        files = {TABLE: contents(os.path.join(self.path, TABLE))}
        for name in named_paths(files[TABLE]):
            self._seen[name] = self._sign(name)
            if self._seen[name]:
                files[name] = contents(os.path.join(self.path, name))
        return files

    def _sign(self, name: str) -> Optional[Tuple[int, int, int]]:
        """What changes where a file is written or another takes its place; none where it isn't there."""
        try:
            found = os.stat(os.path.join(self.path, name))
        except FileNotFoundError:
            return None
        except OSError as why:
            raise NotHere(f"{os.path.join(self.path, name)} can't be read: {reason(why)}") from None
        return found.st_mtime_ns, found.st_size, found.st_ino


class EtcdSource:
    """Keys below a prefix in etcd. A thread watches them, so that a change is taken up at once; where it can't, they are asked for again."""

    def __init__(self, etcd: Etcd, watches: bool = False, clock: Callable[[], float] = time.monotonic) -> None:
        self.etcd = etcd
        self._clock = clock
        self._keys: Optional[Keys] = None
        self._due = 0.0
        self._changed = threading.Event()
        self._ended = threading.Event()
        if watches:
            threading.Thread(target=self._watch, args=(etcd.another(),), daemon=True).start()

    def __str__(self) -> str:
        return str(self.etcd)

    def read(self) -> WantedState:
        self._changed.clear()
        self._keys = self.etcd.read()
        self._due = self._clock() + POLL
        return read_wanted({path: key.value for path, key in self._keys.keys.items()})

    def is_as_read(self) -> bool:
        if self._keys is None:
            return False
        self._changed.clear()
        is_same = self.etcd.read(values=False).revisions() == self._keys.revisions()
        self._due = self._clock() + POLL
        return is_same

    def may_have_changed(self) -> bool:
        return self._changed.is_set() or self._clock() >= self._due

    def wait(self, seconds: float) -> None:
        self._changed.wait(seconds)

    def close(self) -> None:
        self._ended.set()

    def _watch(self, etcd: Etcd) -> None:
        """Tells of each change; the watch is begun anew where it is lost."""
        while not self._ended.is_set():
            try:
                for _ in etcd.changes():
                    self._changed.set()
            except Problem:
                self._ended.wait(RENEWED)
