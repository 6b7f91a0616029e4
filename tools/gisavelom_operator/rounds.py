"""Looks at a fleet and orders what differs from a wanted state. Nothing is kept between two runs: what is to be done is read off what agents and servers tell,
so a run that is broken off is begun again, and several that run at once order the same."""
from __future__ import annotations

import threading
import time
from collections import Counter
from dataclasses import dataclass
from typing import Callable, Dict, Iterator, List, Mapping, Optional, Sequence, Set, Tuple

from .agents import Summary
from .fleet import REFRESH, Agent, Fleet, View
from .lines import Address, Listed
from .problems import NoServer, NoSuchAgent, NotUnderstood, Problem
from .sources import Source
from .standings import Place, Standing, Turn, standing_of, turns_of
from .wanted import Line, WantedState

Order = Tuple[Agent, Optional[Line]]  # what the line wants is offered to the agent; without one what stands for it is withdrawn

ASKED_AGAIN = 1.0  # seconds of ordering behind which it is looked whether the same is still wanted


@dataclass(frozen=True)
class Picture:
    """The fleet beside the wanted state at one moment, and what is to be done."""

    wanted: WantedState
    view: View
    standings: Tuple[Standing, ...]
    turns: Tuple[Turn, ...]
    forsaken: Tuple[Agent, ...]  # what servers hold of agents that have gone to another one, where something may stand that isn't wanted

    @property
    def now(self) -> List[Standing]:
        """Who is to be ordered now."""
        return [each for turn in self.turns for each in turn.now]


@dataclass(frozen=True)
class Done:
    """What came of a round's orders."""

    ordered: int
    withdrawn: int
    problems: Tuple[Tuple[Agent, Problem], ...]
    is_whole: bool  # false where something else was wanted in the middle, and the rest wasn't ordered


@dataclass
class _Heard:
    """What a server said of what waits for an agent: where its line in `list` was so, and this was wanted, and when."""

    listed: Listed
    hash: str
    moment: float
    waits: str  # the hash of the configuration that waits, empty for none


class Rounds:
    """A fleet, a source of a wanted state, and what was heard in former rounds: that spares questions, and nothing rests on it."""

    def __init__(self, fleet: Fleet, source: Source, clock: Callable[[], float] = time.monotonic) -> None:
        self._fleet = fleet
        self._source = source
        self._clock = clock
        self._wanted: Optional[WantedState] = None
        self._lines: Dict[str, Tuple[Optional[Summary], Optional[Line]]] = {}
        self._heard: Dict[Place, _Heard] = {}
        self._cleared: Dict[Place, Listed] = {}  # where nothing stands since this line in `list`, as far as this program knows
        self._lock = threading.Lock()
        self._asked = 0.0
        self._is_same = True

    def look(self) -> Picture:
        """The fleet beside what is wanted now. A Problem where either can't be had: then nothing can be ordered."""
        wanted = self._read()
        view = self._fleet.look()
        view.need_a_server()
        if len(self._lines) > 2 * len(view.agents):
            self._lines.clear()
        lines = {agent.uid: self._line(wanted, agent) for agent in view.agents}
        hashes = {uid: line.hash for uid, line in lines.items() if line and not line.is_alone}
        silent, hiding = {address for address, _ in view.silent}, set(view.hiding)
        agents = [agent for agent in (*view.agents, *view.former) if agent.uid in hashes and agent.server not in silent]
        unheard = self._ask(agents, hashes)
        silent |= unheard
        waiting = {place: heard.waits for place, heard in self._heard.items() if place[0] not in silent}
        standings = tuple(standing_of(agent, lines[agent.uid], wanted, waiting) for agent in view.agents)
        forsaken = tuple(agent for agent in view.former if self._is_forsaken(agent, hashes, waiting))
        return Picture(wanted, view, standings, tuple(turns_of(wanted, standings, bool(hiding | unheard))), forsaken)

    def order(self, picture: Picture) -> Done:
        """Orders what is to be ordered now, all servers at once, as long as the same is wanted."""
        work: Dict[Address, List[Order]] = {address: [] for address in self._fleet.servers}
        for each in picture.now:
            work[each.agent.server].append((each.agent, each.line))
        for agent in picture.forsaken:
            work[agent.server].append((agent, None))
        if not any(work.values()):
            return Done(0, 0, (), True)
        self._asked, self._is_same = self._clock(), self._source.is_as_read()
        problems: List[Tuple[Agent, Problem]] = []
        counts: Counter[str] = Counter()
        self._fleet.each(lambda address: self._work(address, work[address], problems, counts))
        if not self._is_same:
            self._wanted = None
        return Done(counts["config"], counts["withdraw"], tuple(problems), self._is_same)

    def _read(self) -> WantedState:
        if self._wanted is None or self._source.may_have_changed() and not self._source.is_as_read():
            self._wanted = None
            self._lines.clear()
            self._wanted = self._source.read()
        return self._wanted

    def _line(self, wanted: WantedState, agent: Agent) -> Optional[Line]:
        """The line that counts for the agent, looked for once for what was heard of it."""
        known = self._lines.get(agent.uid)
        if known is None or known[0] is not agent.summary:
            known = self._lines[agent.uid] = (agent.summary, wanted.line_of(agent))
        return known[1]

    def _ask(self, agents: Sequence[Agent], hashes: Mapping[str, str]) -> Set[Address]:
        """Has servers tell what waits for agents, where it isn't known of late. Gives the servers that didn't answer."""
        now, silent = self._clock(), set()
        places = {(agent.server, agent.uid) for agent in agents}
        self._heard = {place: heard for place, heard in self._heard.items() if place in places}
        self._cleared = {place: listed for place, listed in self._cleared.items() if place in places}
        due: Dict[Address, Dict[str, Agent]] = {address: {} for address in self._fleet.servers}
        for agent in agents:
            heard = self._heard.get((agent.server, agent.uid))
            if not heard or heard.listed != agent.listed or heard.hash != hashes[agent.uid] or now - heard.moment >= REFRESH:
                self._heard.pop((agent.server, agent.uid), None)
                due[agent.server][agent.uid] = agent

        def ask(address: Address) -> None:
            try:
                for uid, lines in self._fleet.session_at(address).waits_all(due[address]):
                    if lines is not None:
                        self._heard[address, uid] = _Heard(due[address][uid].listed, hashes[uid], self._clock(), _config_in(lines))
            except (NoServer, NotUnderstood):
                silent.add(address)

        self._fleet.each(ask)
        return silent

    def _is_forsaken(self, agent: Agent, hashes: Mapping[str, str], waiting: Mapping[Place, str]) -> bool:
        """Whether something may stand for an agent, where it has been, that isn't what is wanted now.

        A server doesn't tell an offer that the agent has taken, and yet makes it again to an agent that comes back with another one.
        """
        place = (agent.server, agent.uid)
        waits = waiting.get(place)
        if waits is None or waits == hashes.get(agent.uid):
            return False
        return bool(waits) or self._cleared.get(place) != agent.listed

    def _work(self, address: Address, work: Sequence[Order], problems: List[Tuple[Agent, Problem]], counts: Counter[str]) -> None:
        """Gives one server its orders."""
        done = 0
        try:
            for why in self._fleet.session_at(address).order_all(self._orders(work)):
                with self._lock:
                    self._note(work[done], why, problems, counts)
                done += 1
        except (NoServer, NotUnderstood) as why:
            with self._lock:
                problems.extend((agent, why) for agent, _ in work[done:])

    def _orders(self, work: Sequence[Order]) -> Iterator[str]:
        """The lines of orders, as long as the same is wanted."""
        for agent, line in work:
            if not self._is_still_wanted():
                return
            yield f"config {agent.uid} {line.order}" if line else f"withdraw {agent.uid}"

    def _note(self, order: Order, why: Optional[Problem], problems: List[Tuple[Agent, Problem]], counts: Counter[str]) -> None:
        """What came of one order."""
        agent, line = order
        place = (agent.server, agent.uid)
        if why:
            self._heard.pop(place, None)
            if not isinstance(why, NoSuchAgent):
                problems.append((agent, why))
            return
        counts["config" if line else "withdraw"] += 1
        if place in self._heard:
            self._heard[place].waits = line.hash if line else ""
        if not line:
            self._cleared[place] = agent.listed

    def _is_still_wanted(self) -> bool:
        """Whether what is ordered is still wanted, looked at once a second at most. A source that can't be asked says no."""
        with self._lock:
            if self._is_same and self._clock() - self._asked >= ASKED_AGAIN:
                self._asked = self._clock()
                try:
                    self._is_same = self._source.is_as_read()
                except Problem:
                    self._is_same = False
            return self._is_same


def _config_in(lines: Sequence[str]) -> str:
    """The hash of the configuration in the answer to `waits`, empty where there is none."""
    return next((line[len("config "):] for line in lines if line.startswith("config ")), "")
