"""The collector's process: started, found again, reloaded and ended; never two at once."""
from __future__ import annotations

import hashlib
import os
import signal
import subprocess
import time
from typing import List, Optional, Sequence

from .asking import ending
from .files import read_or_none, write_whole
from .output import Output
from .processes import COMMAND_MARK, Identity, boot, marked, with_mark

# A set that isn't known: the collector is being reloaded, or was when this program was killed.
UNKNOWN = "-"


class Collector:
    """The one collector, which runs a set of files, or none."""

    def __init__(self, own: str, folder: str, words: Sequence[str], output: Output) -> None:
        self.own, self.folder, self.words, self.output = own, folder, words, output
        # A collector that was started by other words isn't taken over.
        self.call = hashlib.sha256("\0".join(words).encode()).hexdigest()
        self.record = os.path.join(own, "collector")
        self.process: Optional[subprocess.Popen[bytes]] = None
        self.identity: Optional[Identity] = None
        self.set = UNKNOWN
        # Since when it runs: nanoseconds since 1970, and seconds of the clock that is never set
        self.started, self.since = 0, 0.0
        self.end = "isn't started yet"

    def is_alive(self) -> bool:
        if self.process:
            return self.process.poll() is None
        return self.identity is not None and self.identity.is_alive()

    def runs(self, digest: Optional[str]) -> bool:
        return self.is_alive() and self.set == digest

    def pid(self) -> int:
        return self.identity.pid if self.identity else 0

    def find(self) -> bool:
        """Takes over the collector of a former life of this program. What else was left of that is ended."""
        told = (read_or_none(self.record) or b"").decode(errors="replace").split()
        if len(told) == 6 and told[0] == boot() and all(each.isdigit() for each in told[1:4]):
            former = Identity(int(told[1]), int(told[2]))
            if former.is_alive():
                self.identity, self.started, self.since = former, int(told[3]), time.monotonic()
                self.set = told[4] if told[5] == self.call else UNKNOWN
        self._end_others()
        return self.is_alive()

    def start(self, digest: str) -> None:
        """Starts it with this set, which is in its place. Nothing of a former one is left then."""
        self.clear()
        self.output.begin()
        written = self.output.opened()
        try:
            self.process = subprocess.Popen(self.words, cwd=self.folder, env=with_mark(self.own), stdin=subprocess.DEVNULL, stdout=written,
                                            stderr=written, start_new_session=True)
        finally:
            os.close(written)
        self.identity, self.started, self.since = Identity.of(self.process.pid), time.time_ns(), time.monotonic()
        self.settled(digest)

    def settled(self, digest: str) -> None:
        """It runs this set now; of UNKNOWN, nobody can say which. A next life of this program looks at the record."""
        self.set = digest
        if self.identity:
            told = f"{boot()} {self.identity.pid} {self.identity.start} {self.started} {digest} {self.call}\n"
            write_whole(self.record, told.encode())

    def hang_up(self) -> bool:
        return self.identity is not None and self.identity.send(signal.SIGHUP)

    def terminate(self) -> None:
        if self.identity:
            self.identity.send(signal.SIGTERM)

    def clear(self) -> None:
        """Kills what is left of it, with all that it started, and waits until it is gone."""
        if self.is_alive() and self.identity:
            self.identity.send(signal.SIGKILL)
        left = marked(self.own) + ([self.identity] if self.identity else [])
        if self.process:
            self.process.wait()
        self._kill(left)
        self.process = self.identity = None
        self.set = UNKNOWN

    def gone(self) -> str:
        """How it ended, in its own words."""
        status = self.process.poll() if self.process else None
        how = ending(status) if status is not None else "has ended"
        words = self.output.words()
        return f"the collector {how}: {words}" if words else f"the collector {how}"

    def _end_others(self) -> None:
        """Whatever has a mark and isn't of the collector's session: a check that was going on, a collector whose start wasn't recorded."""
        session = self.identity.pid if self.identity else -1
        others = [each for each in marked(self.own) + marked(self.own, COMMAND_MARK) if each != self.identity and each.session() != session]
        for each in others:
            each.send(signal.SIGTERM)
        end = time.monotonic() + 5
        while time.monotonic() < end and any(each.is_alive() for each in others):
            time.sleep(0.05)
        self._kill(others)

    def _kill(self, left: List[Identity]) -> None:
        for each in left:
            each.send(signal.SIGKILL)
        while any(each.is_alive() for each in left):
            time.sleep(0.02)
