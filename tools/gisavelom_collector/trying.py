"""How a set of files is checked, taken up and watched; and how the collector goes back. All are generators, a step at each turn."""
from __future__ import annotations

import time
from typing import Callable, Generator, Optional

from .asking import Answer, Steps, ask, is_url, run
from .collector import UNKNOWN, Collector
from .messages import plain
from .problems import reason
from .processes import COMMAND_MARK, with_mark
from .sets import Sets
from .settings import Settings, words_of

# Why a set isn't run, in the check's or the collector's own words; None where it is.
Refusal = Generator[None, None, Optional[str]]
Waiting = Generator[None, None, None]


class Trying:
    """The means by which the collector comes to run a set."""

    def __init__(self, settings: Settings, sets: Sets, collector: Collector, note: Callable[[str], None]) -> None:
        self.settings, self.sets, self.collector, self.note = settings, sets, collector, note
        self.times = settings.times

    def wait(self, seconds: float) -> Waiting:
        end = time.monotonic() + seconds
        while time.monotonic() < end:
            yield

    def check(self, digest: str) -> Refusal:
        """What the collector's own check says of the set, before it is in the collector's place."""
        if self.settings.check:
            answer = yield from self._command(self.settings.check, self.sets.path(digest), self.times.check)
            if not answer.good:
                return plain(f"the check: {answer.words.replace(self.sets.path(digest) + '/', '')}")
        return None

    def health(self) -> Steps:
        """Whether the collector says that it is healthy."""
        asked = self.settings.health
        if not asked:
            return Answer(True)
        if is_url(asked):
            return (yield from ask("GET", asked, self.times.health))
        return (yield from self._command(asked, self.settings.place, self.times.health))

    def take_up(self, digest: str) -> Refusal:
        """Puts the set in the collector's place, has the collector run it, and waits until it works."""
        try:
            # Whoever finds the collector from now on can't know what it runs.
            self.collector.settled(UNKNOWN)
            self.sets.put(digest)
            if self.collector.is_alive() and self.settings.reload != "restart":
                answer = yield from self._reload()
                if not answer.good:
                    return self._told(f"the reload: {answer.words}")
                self.collector.settled(digest)
                self.note(f"the collector {self.collector.pid()} is reloaded")
            else:
                yield from self.stop()
                self.start(digest)
        except OSError as why:
            return f"the files can't be put in place: {reason(why)}"
        return (yield from self.steady())

    def steady(self) -> Refusal:
        """Waits until the collector was healthy for long enough without a break."""
        end, since = time.monotonic() + self.times.patience, None
        while True:
            if not self.collector.is_alive():
                return plain(self.collector.gone().replace(self.settings.place + "/", ""))
            answer = yield from self.health()
            now = time.monotonic()
            since = (since or now) if answer.good else None
            if since and now - since >= self.times.steady and self.collector.is_alive():
                return None
            if now > (since + self.times.steady + 1 if since and since <= end else end):
                return self._told(f"not healthy in {self.times.patience:g} s: {answer.words}")
            yield from self.wait(min(0.5, self.times.steady / 4))

    def back(self, former: str) -> Waiting:
        """Has the collector run what worked. It is started anew: one that refused a reload may die of the next one."""
        self.sets.put(former)
        yield from self.stop()
        self.start(former)

    def stop(self) -> Waiting:
        """Ends the collector: by SIGTERM, and behind its time by SIGKILL."""
        if self.collector.is_alive():
            self.collector.terminate()
            end = time.monotonic() + self.times.stop
            while self.collector.is_alive() and time.monotonic() < end:
                yield
        self.collector.clear()

    def start(self, digest: str) -> None:
        self.collector.start(digest)
        self.note(f"the collector {self.collector.pid()} is started")

    def _reload(self) -> Steps:
        self.collector.output.begin()
        means = self.settings.reload
        if means == "hup":
            return Answer(self.collector.hang_up(), "no such process")
        if is_url(means):
            return (yield from ask("POST", means, self.times.check))
        return (yield from self._command(means, self.settings.place, self.times.check))

    def _told(self, words: str) -> str:
        """The words with what the collector wrote meanwhile."""
        written = self.collector.output.words()
        return plain((f"{words}\n{written}" if written else words).replace(self.settings.place + "/", ""))

    def _command(self, command: str, files: str, limit: float) -> Steps:
        own = self.settings.own
        environment = with_mark(own, COMMAND_MARK)
        environment["COLLECTOR_PID"] = str(self.collector.pid())
        return (yield from run(words_of(command, files, own), self.settings.folder, environment, limit))
