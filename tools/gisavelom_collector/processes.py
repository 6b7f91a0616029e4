"""Processes of this machine, as /proc tells them: which is which beyond its number, and how it is signalled without mistaking it."""
from __future__ import annotations

import os
import signal
from dataclasses import dataclass
from typing import Dict, List, Optional

# What the program starts has one of these in its environment, with the own folder as the value: the collector, and a command as a check is one. So
# nothing that was started is lost, whoever was killed.
MARK, COMMAND_MARK = "GISAVELOM_COLLECTOR", "GISAVELOM_COLLECTOR_COMMAND"


def boot() -> str:
    """A name of the time since the machine was started."""
    with open("/proc/sys/kernel/random/boot_id", encoding="ascii") as file:
        return file.read().strip()


def _stat(pid: int) -> Optional[List[str]]:
    """The fields of /proc/PID/stat from the state on, or None where there is no such process."""
    try:
        with open(f"/proc/{pid}/stat", encoding="utf-8", errors="replace") as file:
            return file.read().rsplit(")", 1)[1].split()
    except (OSError, IndexError):
        return None


@dataclass(frozen=True)
class Identity:
    """A process: its number, and its start in ticks since the boot, since numbers come again."""

    pid: int
    start: int

    @classmethod
    def of(cls, pid: int) -> Optional[Identity]:
        """The process with this number, unless it has ended."""
        told = _stat(pid)
        return cls(pid, int(told[19])) if told and told[0] not in "ZXx" else None

    def is_alive(self) -> bool:
        return Identity.of(self.pid) == self

    def session(self) -> int:
        told = _stat(self.pid)
        return int(told[3]) if told else 0

    def send(self, number: signal.Signals) -> bool:
        """Signals this very process; no where it has ended."""
        try:
            opened = os.pidfd_open(self.pid)
        except OSError:
            return False
        try:
            # The number now stays with the process that it is opened for.
            if not self.is_alive():
                return False
            signal.pidfd_send_signal(opened, number)
            return True
        except OSError:
            return False
        finally:
            os.close(opened)


def marked(value: str, mark: str = MARK) -> List[Identity]:
    """All processes that have this mark, but this one."""
    wanted, found = f"{mark}={value}".encode(), []
    for name in os.listdir("/proc"):
        if name.isdigit() and int(name) != os.getpid():
            try:
                with open(f"/proc/{name}/environ", "rb") as file:
                    has = wanted in file.read().split(b"\0")
            except OSError:
                continue
            identity = Identity.of(int(name)) if has else None
            if identity:
                found.append(identity)
    return found


def with_mark(value: str, mark: str = MARK) -> Dict[str, str]:
    """The environment for what is started."""
    return {**{name: each for name, each in os.environ.items() if name not in (MARK, COMMAND_MARK)}, mark: value}
