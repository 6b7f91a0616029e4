"""The agents of one server or of several, seen as one fleet.

`list` tells of each agent its number, whether it is here and how it fares. All else, the service's name and version and what
became of offers, is in the text that `show` gives, one agent at a time. So `show` is asked of every agent once, ahead on one
connection, and later only of those whose line in `list` has changed: what a server knows of an agent changes by its reports
alone, and each one that is taken sets the number. An agent that starts again at its former number would be missed by that, so
each is asked again once what is known of it is REFRESH seconds old. `ages` and `count` are asked where somebody wants them; of a
server that doesn't know these lines nothing is told there.
"""
from __future__ import annotations

import threading
import time
from concurrent.futures import ThreadPoolExecutor
from dataclasses import dataclass, field
from typing import Callable, Dict, Iterable, List, Mapping, Optional, Sequence, Tuple

from .agents import Summary, summary_of
from .lines import Address, Aged, Counts, Listed, Rollout, Session, WithoutRollouts
from .problems import NoServer, NoSuchAgent, NotUnderstood, Problem, Refused, SeveralAgents

REFRESH = 30.0
RENEWED = 1.0   # seconds between two looks of a watch
WATCHED = 10.0  # seconds for which a watch goes on behind the last one who looked


@dataclass(frozen=True)
class Agent:
    """An agent, as the server tells it whose number of it is highest."""

    listed: Listed
    server: Address
    summary: Optional[Summary]  # None where it wasn't asked for, or can't be shown
    since: float = 0.0  # the moment from which on this program has seen no report of it taken
    age: Optional[Aged] = None  # None where it wasn't asked for, or the server doesn't tell it

    @property
    def uid(self) -> str:
        return self.listed.uid

    @property
    def is_here(self) -> bool:
        return self.listed.presence == "here"


@dataclass(frozen=True)
class View:
    """The fleet at one moment: agents ascending by identifier, and the servers that left something unanswered, each with why."""

    agents: Tuple[Agent, ...]
    servers: Tuple[Address, ...]
    heard: Tuple[Address, ...]  # those that gave their list
    silent: Tuple[Tuple[Address, Problem], ...]
    former: Tuple[Agent, ...] = ()  # what servers still hold of agents that are shown elsewhere
    hiding: Tuple[Address, ...] = ()  # of the silent servers those that may have agents that no other one has
    aged: Tuple[Address, ...] = ()     # those that gave their list, and told ages
    ageless: Tuple[Address, ...] = ()  # those that gave their list, and don't know the line for ages
    counts: Mapping[Address, Counts] = field(default_factory=dict)  # of those that were asked, and know that line

    def need_a_server(self) -> None:
        """NoServer where not one server gave its list; NotUnderstood where none of them speaks operators' lines."""
        if not self.heard:
            strange = all(isinstance(why, NotUnderstood) for _, why in self.silent)
            raise (NotUnderstood if strange else NoServer)("; ".join(str(why) for _, why in self.silent))

    def found(self, words: str) -> Agent:
        """The one agent whose identifier is this or begins so, or that told this attribute: KEY=VALUE."""
        agents = self.all_found(words)
        if len(agents) > 1:
            told = f"{len(agents)} agents told {words}" if names_attribute(words) else f"{len(agents)} agents' identifiers begin with {words}"
            some = ", ".join(agent.uid for agent in agents[:3])
            raise SeveralAgents(f"{told}: {some}{', ..' if len(agents) > 3 else ''}")
        return agents[0]

    def all_found(self, words: str, or_none: bool = False) -> List[Agent]:
        """The agents whose identifiers begin so, or that told this attribute; NoSuchAgent where there is none, unless that is meant."""
        agents = matching(self.agents, [attribute_of(words)]) if names_attribute(words) else self._beginning(words)
        if not agents and not or_none:
            told = f"no agent told {words}" if names_attribute(words) else f"no agent's identifier is or begins with {words}"
            raise NoSuchAgent(told + ("; a server that didn't answer may hold it" if self.silent else ""))
        return agents

    def _beginning(self, words: str) -> List[Agent]:
        wanted = compact(words)
        return [agent for agent in self.agents if wanted and compact(agent.uid).startswith(wanted)]


@dataclass
class _Seen:
    """What `show` told of an agent, where its line in `list` was so, and when."""

    listed: Listed
    summary: Optional[Summary]
    moment: float


def names_attribute(words: str) -> bool:
    """Whether an agent is named by what it told, as KEY=VALUE, and not by its identifier."""
    return "=" in words


def attribute_of(words: str) -> Tuple[str, str]:
    """KEY and VALUE of KEY=VALUE."""
    key, _, value = words.partition("=")
    return key, value


def compact(uid: str) -> str:
    """An identifier, or its beginning, as its digits in lower case: the forms that servers read differ in the signs between them."""
    word = uid.lower()
    if word.startswith("urn:uuid:"):
        word = word[9:]
    return word.strip("{}").replace("-", "")


class Fleet:
    """Servers, and what they told of their agents."""

    def __init__(self, sessions: Sequence[Session], clock: Callable[[], float] = time.monotonic) -> None:
        self._sessions = {session.address: session for session in sessions}
        self._seen: Dict[Address, Dict[str, _Seen]] = {address: {} for address in self._sessions}
        self._clock = clock
        self._numbers: Dict[str, Tuple[int, float]] = {}
        self._lists: Dict[Address, List[Listed]] = {}  # as each server told it last
        self._ages: Dict[Address, Optional[Dict[str, Aged]]] = {}  # likewise; None of one that doesn't know that line

    @property
    def servers(self) -> Tuple[Address, ...]:
        return tuple(self._sessions)

    def session(self, agent: Agent) -> Session:
        """What is said to the agent's server."""
        return self._sessions[agent.server]

    def session_at(self, address: Address) -> Session:
        """What is said to the server there."""
        return self._sessions[address]

    def another_session(self, address: Address) -> Session:
        """A session of its own with the server, for another thread."""
        return self._sessions[address].another()

    def only_session(self) -> Optional[Session]:
        """What is said to the one server; none where there are several."""
        return next(iter(self._sessions.values())) if len(self._sessions) == 1 else None

    def summary(self, agent: Agent) -> Optional[Summary]:
        """What the agent's server shows of it now; none where the text is larger than what the server lets wait."""
        for _, text in self.session(agent).show_all([agent.uid]):
            return None if text is None else summary_of(text)
        return None

    def close(self) -> None:
        """Ends all connections."""
        for session in self._sessions.values():
            session.close()

    def look(self, summaries: bool = True, ages: bool = False, counts: bool = False) -> View:
        """Asks all servers at once, each on a connection of its own."""
        silent: Dict[Address, Problem] = {}
        counted: Dict[Address, Counts] = {}

        def asked(address: Address, ask: Callable[[], None]) -> None:
            try:
                ask()
            except (NoServer, NotUnderstood) as why:
                silent[address] = why

        def hear(address: Address) -> None:
            lists[address] = self._sessions[address].list()
            if ages:
                self._ages[address] = self._told_ages(address)
            if counts:
                counted.update(self._told_counts(address))

        lists: Dict[Address, List[Listed]] = {}
        self.each(lambda address: asked(address, lambda: hear(address)))
        chosen = _highest({address: lists[address] for address in self._sessions if address in lists})
        if summaries:
            self.each(lambda address: asked(address, lambda: self._ask(address, chosen)))
        self._note_numbers(chosen)
        agents = tuple(self._agent(*chosen[uid], summaries, ages) for uid in sorted(chosen))
        ordered = tuple((address, silent[address]) for address in self._sessions if address in silent)
        former = tuple(Agent(row, address, None) for address, rows in lists.items() for row in rows if chosen[row.uid][0] != address)
        hiding = tuple(address for address in silent if address in lists or self._hides(address, chosen))
        self._lists.update(lists)
        told = {address: self._ages[address] is not None for address in self._sessions if ages and address in lists and address in self._ages}
        aged, ageless = (tuple(address for address in told if told[address] == so) for so in (True, False))
        return View(agents, self.servers, tuple(lists), ordered, former, hiding, aged, ageless, counted)

    def count(self) -> View:
        """Asks all servers at once for their counts, and for nothing else."""
        silent: Dict[Address, Problem] = {}
        counted: Dict[Address, Counts] = {}
        heard: List[Address] = []

        def ask(address: Address) -> None:
            try:
                counted.update(self._told_counts(address))
                heard.append(address)
            except (NoServer, NotUnderstood) as why:
                silent[address] = why

        self.each(ask)
        ordered = tuple((address, silent[address]) for address in self._sessions if address in silent)
        return View((), self.servers, tuple(address for address in self._sessions if address in heard), ordered, counts=counted)

    def each(self, work: Callable[[Address], None]) -> None:
        """Works at all servers at once."""
        with ThreadPoolExecutor(max_workers=max(1, len(self._sessions))) as pool:
            list(pool.map(work, self._sessions))

    def _ask(self, address: Address, chosen: Dict[str, Tuple[Address, Listed]]) -> None:
        """Has a server show those of its agents that changed."""
        lines = {uid: listed for uid, (server, listed) in chosen.items() if server == address}
        seen = self._seen[address]
        for uid in [uid for uid in seen if uid not in lines]:
            del seen[uid]
        now = self._clock()
        due = [uid for uid in sorted(lines) if uid not in seen or seen[uid].listed != lines[uid] or now - seen[uid].moment >= REFRESH]
        for uid, text in self._sessions[address].show_all(due):
            seen[uid] = _Seen(lines[uid], None if text is None else summary_of(text), self._clock())

    def _told_ages(self, address: Address) -> Optional[Dict[str, Aged]]:
        """The ages by identifiers; None where the server doesn't know that line, or refuses it."""
        try:
            told = self._sessions[address].ages()
        except Refused:
            return None
        return None if told is None else {each.uid: each for each in told}

    def _told_counts(self, address: Address) -> Dict[Address, Counts]:
        """The server with its counts; nothing where it doesn't know that line, or refuses it."""
        try:
            told = self._sessions[address].count()
        except Refused:
            return {}
        return {} if told is None else {address: told}

    def _agent(self, address: Address, listed: Listed, summaries: bool, ages: bool) -> Agent:
        seen = self._seen[address].get(listed.uid) if summaries else None
        aged = (self._ages.get(address) or {}).get(listed.uid) if ages else None
        return Agent(listed, address, seen.summary if seen else None, self._numbers[listed.uid][1], aged)

    def _hides(self, address: Address, chosen: Dict[str, Tuple[Address, Listed]]) -> bool:
        """Whether not all agents that were last seen at a server are known to report elsewhere now."""
        if address not in self._lists:
            return True
        here = [row for row in self._lists[address] if row.presence == "here"]
        return any(row.uid not in chosen or chosen[row.uid][1].number <= row.number for row in here)

    def _note_numbers(self, chosen: Dict[str, Tuple[Address, Listed]]) -> None:
        """Keeps of each agent its number, and since when that was seen."""
        fresh, former = {uid: (listed.number, self._clock()) for uid, (_, listed) in chosen.items()}, self._numbers
        self._numbers = {uid: former[uid] if uid in former and former[uid][0] == told[0] else told for uid, told in fresh.items()}


@dataclass(frozen=True)
class Told:
    """What a server told last: its agents, when that was (None where it never did), and why it is silent now (None where it isn't)."""

    agents: Tuple[Agent, ...]
    heard: Optional[float]
    why: Optional[Problem]
    rollouts: Tuple[Rollout, ...] = ()
    has_ages: bool = True  # whether it tells how long ago reports were taken


class Watch:
    """One server, asked again and again by a thread of its own, so that one that hangs holds up nobody. What it told last stays.

    It is asked as long as somebody looks: `wake` has it go on for a while.
    """

    def __init__(self, session: Session, clock: Callable[[], float] = time.monotonic) -> None:
        self.address = session.address
        self._session = session
        self._fleet = Fleet([session], clock)
        self._clock = clock
        self._changed = threading.Condition()
        self._wanted_until = 0.0
        self._agents: Tuple[Agent, ...] = ()
        self._heard: Optional[float] = None
        self._why: Optional[Problem] = None
        self._rollouts: Tuple[Rollout, ...] = ()
        self._has_ages = True
        self._looks = 0
        threading.Thread(target=self._work, daemon=True).start()

    def wake(self) -> None:
        """Has the server be asked for a while."""
        with self._changed:
            self._wanted_until = self._clock() + WATCHED
            self._changed.notify_all()

    def wait_for_a_look(self, seconds: float) -> None:
        """Waits until the server was asked once, or the time is over."""
        with self._changed:
            self._changed.wait_for(lambda: self._looks > 0, seconds)

    def told(self) -> Told:
        """What it told last, when, and why it is silent now."""
        with self._changed:
            return Told(self._agents, self._heard, self._why, self._rollouts, self._has_ages)

    def look_again(self) -> None:
        """Asks the server once, and keeps what it tells."""
        view = self._fleet.look(ages=True)
        why = view.silent[0][1] if view.silent else None
        rollouts = self._rollouts
        if not why:
            try:
                rollouts = tuple(self._session.rollouts())
            except WithoutRollouts:
                rollouts = ()
            except Problem as problem:
                why = problem
        with self._changed:
            if view.heard:
                self._agents, self._heard, self._has_ages = view.agents, self._clock(), not view.ageless
            self._rollouts, self._why = rollouts, why
            self._looks += 1
            self._changed.notify_all()

    def _work(self) -> None:
        while True:
            with self._changed:
                self._changed.wait_for(lambda: self._clock() < self._wanted_until)
            self.look_again()
            time.sleep(RENEWED)


def joined(told: Dict[Address, Told]) -> View:
    """The fleet of what servers told, each agent by the server whose number of it is highest."""
    chosen: Dict[str, Agent] = {}
    for each in told.values():
        for agent in each.agents:
            if agent.uid not in chosen or agent.listed.number > chosen[agent.uid].listed.number:
                chosen[agent.uid] = agent
    silent = tuple((address, each.why) for address, each in told.items() if each.why)
    heard = tuple(address for address, each in told.items() if each.heard is not None)
    return View(tuple(chosen[uid] for uid in sorted(chosen)), tuple(told), heard, silent)


def _highest(lists: Dict[Address, List[Listed]]) -> Dict[str, Tuple[Address, Listed]]:
    """Of each agent the line with the highest number, the first server's where several have it."""
    chosen: Dict[str, Tuple[Address, Listed]] = {}
    for address, lines in lists.items():
        for listed in lines:
            if listed.uid not in chosen or listed.number > chosen[listed.uid][1].number:
                chosen[listed.uid] = (address, listed)
    return chosen


def matching(agents: Iterable[Agent], wanted: Sequence[Tuple[str, str]]) -> List[Agent]:
    """The agents that told all these attributes with these values."""
    return [agent for agent in agents if agent.summary and all(agent.summary.attribute(key) == value for key, value in wanted)]
