"""From the words given to an exit status: the lock, the signals, and turn after turn."""
from __future__ import annotations

import fcntl
import os
import signal
import sys
import time
from typing import List, Optional, Sequence

from .area import AgentFolder
from .collector import Collector
from .files import read_folder
from .keeper import Keeper
from .output import Output
from .problems import AlreadyRuns, NotHere, Problem, reason
from .sets import Sets
from .settings import Settings, words_of
from .words import settings

TURN_SECONDS = 0.1


class Signals:
    """What was asked of the program by signals."""

    def __init__(self) -> None:
        self.ended = self.again = False
        for number in (signal.SIGTERM, signal.SIGINT):
            signal.signal(number, self._end)
        signal.signal(signal.SIGHUP, self._hang_up)

    def _end(self, *_: object) -> None:
        self.ended = True

    def _hang_up(self, *_: object) -> None:
        self.again = True


def main(words: Optional[Sequence[str]] = None) -> int:
    """Runs until a signal ends it, and gives the exit status."""
    try:
        told = settings(words)
        locks = locked(told)
        try:
            serve(told)
        finally:
            for each in locks:
                os.close(each)
        return 0
    except Problem as problem:
        note(str(problem))
        return problem.status


def locked(told: Settings) -> List[int]:
    """The locks against a second one over this agent or over this own folder. The system takes them away when this one ends, however that happens."""
    if not os.path.isdir(told.folder):
        raise NotHere(f"{told.folder} is no folder")
    try:
        os.makedirs(told.own, mode=0o755, exist_ok=True)
    except OSError as why:
        raise NotHere(f"{told.own} can't be used: {reason(why)}") from None
    return [lock(told.folder, "collector.lock"), lock(told.own, "lock")]


def lock(folder: str, name: str) -> int:
    """A lock in the folder that one program has at a time."""
    try:
        opened = os.open(os.path.join(folder, name), os.O_RDWR | os.O_CREAT, 0o640)
        fcntl.flock(opened, fcntl.LOCK_EX | fcntl.LOCK_NB)
        return opened
    except BlockingIOError:
        raise AlreadyRuns(f"another one runs over {folder}") from None
    except OSError as why:
        raise NotHere(f"{folder} can't be used: {reason(why)}") from None


def serve(told: Settings) -> None:
    """Turn after turn; at the end the collector is ended."""
    signals = Signals()
    keeper = made(told)
    keeper.open()
    while not signals.ended:
        if signals.again:
            signals.again = False
            keeper.judge_anew()
        keeper.turn()
        time.sleep(TURN_SECONDS)
    note("ends the collector")
    for _ in keeper.close():
        time.sleep(TURN_SECONDS)


def made(told: Settings) -> Keeper:
    """What is there at the start."""
    try:
        sets = Sets(told.own, told.place)
        sets.open()
        files = read_folder(told.default) if told.default else {}
        if told.default and not files:
            raise NotHere(f"{told.default} has no files with good names")
        default = sets.keep(files) if files else None
        collector = Collector(told.own, told.folder, words_of(told.run, told.place, told.own), Output(os.path.join(told.own, "output"), sys.stderr.buffer))
        return Keeper(told, AgentFolder(told.folder), sets, collector, default, note)
    except OSError as why:
        raise NotHere(f"{told.own} can't be used: {reason(why)}") from None


def note(words: str) -> None:
    """One line for the journal."""
    try:
        print("collector:", " | ".join(words.split("\n")), file=sys.stderr, flush=True)
    except OSError:
        pass
