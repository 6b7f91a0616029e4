"""What is done at each turn: the area is looked at, a new set is judged, a dead collector is started again, and all is told to the agent."""
from __future__ import annotations

import time
from typing import Callable, Dict, Generator, Optional

from .area import AgentFolder, Seen, Trial
from .collector import UNKNOWN, Collector
from .messages import APPLIED, FAILED, Health, Told, Word, one_line, plain
from .problems import reason
from .sets import Sets
from .settings import Settings
from .trying import Refusal, Trying, Waiting

NOT_ASKED = "it wasn't asked yet"


class Keeper:
    """Keeps the collector running what the agent brought, or else what worked."""

    def __init__(self, settings: Settings, agent: AgentFolder, sets: Sets, collector: Collector, default: Optional[str],
                 note: Callable[[str], None]) -> None:
        self.settings, self.agent, self.sets, self.collector, self.default, self.note = settings, agent, sets, collector, default, note
        self.trying = Trying(settings, sets, collector, note)
        self.seen: Optional[Seen] = None
        self.course: Optional[Generator[None, None, None]] = None
        self.supervision = self._supervised()
        # While a set is taken up, or the collector goes back, nobody else starts or ends it.
        self.taking = False
        # The trial that goes on or was the last, and the word on it
        self.trial: Optional[Trial] = None
        self.word: Optional[Word] = None
        # The set that the area's files are, and why it isn't run; whether the collector went back since it last took up another set.
        self.wanted: Optional[str] = None
        self.refusal: Optional[str] = None
        self.went_back = False
        # What the collector's last answer says is wrong, and the pause before it is started again
        self.ill: Optional[str] = NOT_ASKED
        self.pause = settings.times.pause
        self.told: Optional[bytes] = None
        self.effective_set: Optional[str] = None
        self.effective: Dict[str, bytes] = {}
        self.trouble = ""

    def open(self) -> None:
        """Takes over the collector of a former life; where it isn't known what that runs, or there is none, what worked is started."""
        if self.collector.find() and self.collector.set != UNKNOWN:
            self.note(f"the collector {self.collector.pid()} is taken over")
        else:
            for _ in self.trying.stop():
                time.sleep(0.05)
            self._start_former()

    def turn(self) -> None:
        """Never waits."""
        self.collector.output.pass_on()
        self._look()
        if self.course and not _goes_on(self.course):
            self.course = None
        if not self.taking and not _goes_on(self.supervision):
            self.supervision = self._supervised()
        self.tell(self.health())

    def judge_anew(self) -> None:
        """What was refused is tried again."""
        self.seen = None

    def close(self) -> Waiting:
        """Ends the collector, and says so."""
        for each in (self.course, self.supervision):
            if each:
                each.close()
        yield from self.trying.stop()
        self.tell(Health(False, "stopped", "the collector was stopped"))

    def health(self) -> Health:
        """The collector is healthy where it runs what it should and says that it is well."""
        if not self.collector.is_alive():
            return Health(False, "starting" if self.taking else "not running", one_line(self.refusal or self.collector.end))
        started = self.collector.started
        if self.taking or self.ill == NOT_ASKED:
            return Health(False, "starting", "", started)
        if self.refusal is not None and not self.collector.runs(self.wanted):
            return Health(False, "running what worked before", one_line(self.refusal), started)
        return Health(self.ill is None, "running, went back" if self.went_back else "running", one_line(self.ill or ""), started)

    def tell(self, health: Health) -> None:
        """Writes the status file where something else is to be told than before, or it isn't there."""
        try:
            told = Told((("service.name", self.settings.name),), self.settings.attributes, self.settings.capabilities, health, self._effective(), self.word)
            message = told.message(0)
            if message == self.told and self.agent.is_told():
                return
            self.agent.tell(told.message(time.time_ns()))
            self.told = message
        except OSError as why:
            self._trouble(f"the status can't be written: {reason(why)}")

    def _effective(self) -> Dict[str, bytes]:
        """The files that the collector runs; where it doesn't run, or nobody can say which it runs, none."""
        if not self.collector.is_alive():
            return {}
        if self.collector.set != self.effective_set:
            self.effective_set, self.effective = self.collector.set, self.sets.files(self.collector.set)
        return self.effective

    def _look(self) -> None:
        """Where other files were brought, or a trial begun, what was going on is given up for them."""
        try:
            seen = self.agent.look()
        except OSError as why:
            self._trouble(f"the agent's folder can't be read: {reason(why)}")
            return
        if seen is None or seen.is_as(self.seen):
            return
        if self.course:
            self.course.close()
        self.seen, self.course, self.trouble = seen, self._judged(seen), ""
        self._begin_word(seen.trial)

    def _begin_word(self, trial: Optional[Trial]) -> None:
        """Behind a change: no word yet on another trial, nor on files that may not have been all of this one's. A failure is final."""
        if trial != self.trial:
            self.trial, self.word = trial, Word(trial.name) if trial else None
            if trial:
                self.note(f"trial {plain(trial.name.decode(errors='replace'), 100)}")
        elif trial and self.word and self.word.status == APPLIED:
            self.word = Word(trial.name)

    def _judged(self, seen: Seen) -> Waiting:
        """Comes to a verdict on the files. Where nothing is known that works they are tried again and again."""
        yield from self.trying.wait(self.settings.times.quiet)
        pause = self.settings.times.pause
        while True:
            refusal = yield from self._tried(seen)
            # Files that the collector runs aren't refused, however it is with them.
            self.refusal = None if self.collector.runs(self.wanted) else refusal
            self._verdict(seen, refusal)
            if refusal is None or self._former() is not None:
                return
            pause = min(2 * pause, self.settings.times.longest)
            yield from self.trying.wait(pause)

    def _tried(self, seen: Seen) -> Refusal:
        """Has the collector run the files, or what worked where it doesn't."""
        refusal, digest = self._kept(seen), self.wanted
        if digest and self.collector.runs(digest):
            slow = yield from self.trying.steady()
            if slow is None:
                self._works(digest)
                return None
            if digest == self._former() and self.collector.is_alive():
                # A start would have it do the same from the beginning.
                return slow
        if digest:
            refusal = yield from self.trying.check(digest)
        self.taking = True
        try:
            if digest and refusal is None:
                self.note("the files are taken up")
                refusal = yield from self.trying.take_up(digest)
            if digest and refusal is None:
                self._works(digest)
            else:
                yield from self._back()
        finally:
            self.taking, self.pause, self.ill = False, self.settings.times.pause, self.ill if refusal is None else NOT_ASKED
            self.supervision.close()
            self.supervision = self._supervised()
        return refusal

    def _kept(self, seen: Seen) -> Optional[str]:
        """Keeps the files as the set that is wanted, or tells why there is none."""
        self.wanted = None
        if seen.lost:
            return f"{seen.lost[0]} is a link that leads nowhere"
        try:
            self.wanted = self.sets.keep(seen.files) if seen.files else self.default
            self.sets.forget_others([self.wanted, self.default, self.collector.set])
        except OSError as why:
            self.wanted = None
            return f"the files can't be kept: {reason(why)}"
        return None if self.wanted else "there are no files"

    def _works(self, digest: str) -> None:
        """The collector runs the set and is healthy."""
        self.ill = None
        if digest != self.sets.good:
            self.went_back = False
        try:
            self.sets.prove(digest)
        except OSError as why:
            self._trouble(f"what works can't be noted: {reason(why)}")

    def _back(self) -> Waiting:
        """Has the collector run what worked, where it doesn't. Where nothing is known to work it runs nothing."""
        former = self._former()
        if self.collector.runs(former) or former is None and not self.collector.is_alive():
            return
        try:
            if former is None:
                self.note("the collector is ended, since nothing is known to work")
                yield from self.trying.stop()
            else:
                self.note("the collector goes back to what worked")
                yield from self.trying.back(former)
        except OSError as why:
            self._trouble(f"the collector can't be started: {reason(why)}")

    def _verdict(self, seen: Seen, refusal: Optional[str]) -> None:
        """The word on the trial. A failure is final; where no files were brought since the trial's name was written there is no word yet."""
        what = "the files are run" if self.refusal is None else "the files aren't run"
        self._trouble(what if refusal is None else f"{what}: {refusal}")
        if self.refusal is not None and self._former() is not None:
            self.went_back = True
        if self.word is None or not seen.brought or self.word.status == FAILED:
            return
        self.word = Word(self.word.trial, APPLIED) if refusal is None else Word(self.word.trial, FAILED, one_line(refusal))

    def _former(self) -> Optional[str]:
        """What is known to work."""
        return self.sets.good or self.default

    def _supervised(self) -> Waiting:
        """Starts a collector that ended again, behind a pause that grows, and asks for its health."""
        times = self.settings.times
        while True:
            if not self.collector.is_alive():
                yield from self._started_again()
                continue
            answer = yield from self.trying.health()
            if not self.collector.is_alive():
                continue
            self.ill = None if answer.good else plain(answer.words or "it says so")
            if answer.good and time.monotonic() - self.collector.since > times.lived:
                self.pause = times.pause
            end = time.monotonic() + (times.every if answer.good else min(0.5, times.every))
            while self.collector.is_alive() and time.monotonic() < end:
                yield

    def _started_again(self) -> Waiting:
        if self.collector.identity:
            self.collector.end = plain(self.collector.gone())
            self.note(self.collector.end)
            self.collector.clear()
        if self._former() is None:
            yield
            return
        yield from self.trying.wait(self.pause)
        self.pause = min(2 * self.pause, self.settings.times.longest)
        self._start_former()
        yield

    def _start_former(self) -> None:
        former = self._former()
        if former is None:
            return
        self.ill = NOT_ASKED
        try:
            self.sets.put(former)
            self.trying.start(former)
        except OSError as why:
            self.collector.end = f"the collector can't be started: {reason(why)}"
            self._trouble(self.collector.end)

    def _trouble(self, words: str) -> None:
        """Said once, until something else is to be said."""
        if words != self.trouble:
            self.trouble = words
            self.note(words)


def _goes_on(steps: Generator[None, None, None]) -> bool:
    try:
        next(steps)
        return True
    except StopIteration:
        return False
