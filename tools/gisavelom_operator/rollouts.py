"""Rollouts, which servers go on with by themselves: begun, looked at and steered at all servers that are given. Each server has its own, with its own width and
failures."""
from __future__ import annotations

import json
import os
import time
from collections import Counter
from dataclasses import dataclass
from typing import Callable, Dict, Iterable, List, Optional, Sequence, Set, Tuple

from .agents import ACCEPTS_REMOTE_CONFIG, REPORTS_REMOTE_CONFIG
from .commands import PAUSE, Desk, warn_of_names
from .fleet import Agent, Fleet, View
from .lines import MOST_ROLLOUTS, ROLLOUT_ID, Address, Member, Rollout, word
from .offers import OfferedConfig
from .problems import NoServer, NoSuchRollout, NotUnderstood, OfferFailed, Problem, Refused, TimeOver, WordsRefused
from .tables import age_words, aligned, cut, parts_of, plain

BAR = 30  # columns of a rollout's bar
BAR_SIGNS = "#!> "  # of the agents that applied the offer, failed it, have it, and wait
FIRST_WORD = "where"  # behind WIDTH/ALLOWED; so no first file is called so

CLEAR_BEHIND, CLEAR_BELOW = "\x1b[K", "\x1b[J"

Place = Tuple[Address, str]  # a server, and the name of a rollout there


def rollout_id(given: str) -> str:
    """A rollout's name: 1 to 64 letters, digits, `-` and `_`."""
    if not ROLLOUT_ID.fullmatch(given):
        raise WordsRefused(f"{given!r} is no name of a rollout: it has 1 to 64 letters, digits, `-` and `_`")
    return given


@dataclass(frozen=True)
class Plan:
    """A rollout that is to begin."""

    id: str
    width: int
    allowed: int
    config: OfferedConfig
    where: Optional[Tuple[str, str]] = None

    def line(self) -> str:
        """The line that begins it. A file of the name `where` isn't the first, which would be read otherwise; the order of files says nothing."""
        files = OfferedConfig(tuple(sorted(self.config.files, key=lambda file: file.name == FIRST_WORD)))
        finder = [FIRST_WORD, word("=".join(self.where), "the attribute")] if self.where else []
        if not finder and files.files[0].name == FIRST_WORD:
            raise WordsRefused(f"a rollout's only file can't be called {FIRST_WORD}, unless --where is given")
        return " ".join(["rollout", self.id, f"{self.width}/{self.allowed}", *finder, files.words()])

    def finds(self, agent: Agent) -> bool:
        """Whether the rollout is for the agent, by what it told."""
        return not self.where or bool(agent.summary and agent.summary.has_text(*self.where))

    def takes(self, agent: Agent) -> bool:
        """Whether the agent joins: it is here, takes configurations and tells what became of them."""
        summary = agent.summary
        is_able = not summary or summary.has(ACCEPTS_REMOTE_CONFIG) and summary.has(REPORTS_REMOTE_CONFIG)
        return agent.is_here and is_able and self.finds(agent)


@dataclass(frozen=True)
class Held:
    """A rollout, as one server tells it."""

    server: Address
    rollout: Rollout

    @property
    def place(self) -> Place:
        return self.server, self.rollout.id


@dataclass(frozen=True)
class RolloutView:
    """The rollouts of all servers at one moment, server by server in the order of begin, and the servers that left that unanswered."""

    held: Tuple[Held, ...]
    servers: Tuple[Address, ...]
    silent: Tuple[Tuple[Address, Problem], ...]

    @property
    def are_several(self) -> bool:
        return len(self.servers) > 1

    def of(self, ids: Sequence[str]) -> List[Held]:
        """Those of these names, or all where none is given."""
        return [held for held in self.held if not ids or held.rollout.id in ids]

    def need_a_server(self) -> None:
        """The first server's problem where no server answered."""
        if len(self.silent) == len(self.servers):
            raise type(self.silent[0][1])("; ".join(str(why) for _, why in self.silent))


def look(fleet: Fleet) -> RolloutView:
    """Asks all servers at once."""
    told: Dict[Address, List[Rollout]] = {}
    silent: Dict[Address, Problem] = {}

    def ask(address: Address) -> None:
        try:
            told[address] = fleet.session_at(address).rollouts()
        except (NoServer, NotUnderstood, Refused) as why:
            silent[address] = why

    fleet.each(ask)
    held = tuple(Held(address, rollout) for address in fleet.servers for rollout in told.get(address, []))
    return RolloutView(held, fleet.servers, tuple((address, silent[address]) for address in fleet.servers if address in silent))


def begin_rollout(desk: Desk, plan: Plan, yes: bool, is_dry: bool) -> None:
    """Begins a rollout at each server. Where one of them can't be asked, or has no place for it, none is told to."""
    line = plan.line()
    warn_of_names(desk, plan.config)
    view = desk.fleet.look()
    rollouts = look(desk.fleet)
    _need_places(plan, view, rollouts)
    joining = [agent for agent in view.agents if plan.takes(agent)]
    if is_dry:
        desk.say(*(f"{agent.uid} would join" for agent in joining), f"{len(joining)} would join, {_terms(plan, view)}")
        return
    _warn_of_moved(desk, view)
    _warn_of_others(desk, rollouts, joining)
    desk.sure(f"begin the rollout {plan.id} of {plan.config.told()} for {len(joining)} agents and those that come, {_terms(plan, view)}?", yes)
    problems: List[Problem] = []
    for address in view.servers:
        try:
            desk.fleet.session_at(address).order(line)
            desk.say(f"the rollout {plan.id} of {plain(plan.config.told())} is begun at {address}")
        except Problem as why:
            problems.append(why)
            if len(view.servers) > 1:
                desk.warn(str(why))
    if problems:
        begun = len(view.servers) - len(problems)
        raise problems[0] if len(view.servers) == 1 else type(problems[0])(f"begun at {begun} of {len(view.servers)} servers")


def list_rollouts(desk: Desk, ids: Sequence[str], as_json: bool) -> None:
    """The rollouts as a table or as JSON, or that of one name."""
    view = _looked(desk)
    held = view.of(ids)
    if ids and not held:
        raise _no_such(ids, view)
    if as_json:
        desk.say(json.dumps([rollout_json(each) for each in held], indent=2))
    elif not held:
        desk.say("there is no rollout")
    else:
        desk.say(*rollout_table(held, view.are_several))


def list_members(desk: Desk, name: str, fate: str, form: str) -> None:
    """The agents that joined a rollout, in the order of joining; of one fate alone where that is given."""
    view = _looked(desk)
    held = view.of([name])
    if not held:
        raise _no_such([name], view)
    agents = {} if form == "brief" else {agent.uid: agent for agent in desk.fleet.look(ages=True).agents}
    members = [(each.server, member) for each in held for member in desk.fleet.session_at(each.server).members(name) if fate in ("", member.fate)]
    if form == "json":
        desk.say(json.dumps([member_json(server, member, agents.get(member.uid)) for server, member in members], indent=2))
    elif form == "brief":
        desk.say(*aligned([["AGENT", "OFFER"], *([member.uid, member.fate] for _, member in members)]))
    else:
        desk.say(*member_table(members, agents, view.are_several))


def steer_rollout(desk: Desk, verb: str, name: str, done: str) -> None:
    """Halts, resumes or finishes a rollout at each server that holds it, all servers at once, so that one that hangs holds up no other."""
    outcomes: Dict[Address, Optional[Problem]] = {}

    def order(address: Address) -> None:
        try:
            desk.fleet.session_at(address).order(f"{verb} {name}")
            outcomes[address] = None
        except Problem as why:
            outcomes[address] = why

    desk.fleet.each(order)
    servers = desk.fleet.servers
    desk.say(*(f"the rollout {name} {done} at {address}" for address in servers if outcomes[address] is None))
    problems = [why for address in servers if (why := outcomes[address]) and not isinstance(why, NoSuchRollout)]
    if problems and len(servers) == 1:
        raise problems[0]
    for why in problems:
        desk.warn(str(why))
    if problems:
        raise type(problems[0])(f"{len(problems)} of {len(servers)} servers may hold the rollout {name} as it was")
    if all(outcomes[address] for address in servers):
        raise NoSuchRollout(f"there is no rollout {name}")


@dataclass
class Following:
    """Rollouts that are looked at until they are over, and what was told of them."""

    desk: Desk
    ids: Sequence[str]
    places: Set[Place]      # where they were seen
    gone: List[Place]       # where they were seen and aren't any more
    told: Dict[Place, str]  # in plain lines, so that only what is new is told
    silent: Set[Address]
    drawn: int = 0          # lines on a terminal that are drawn over

    def take(self, view: RolloutView) -> List[Held]:
        """Those that are followed, as they are now."""
        held = view.of(self.ids)
        there, silent = {each.place for each in held}, {address for address, _ in view.silent}
        gone = sorted(place for place in self.places if place not in there and place[0] not in silent)
        self.gone += gone
        self.places = (self.places | there) - set(gone)
        lines = [f"{name} isn't there any more at {server}: it was finished, or the server began anew" for server, name in gone]
        self._tell(view, held, lines)
        return held

    def is_over(self, view: RolloutView, held: Sequence[Held]) -> bool:
        """Whether none of them goes on, at servers that all answer."""
        away = {address for address, _ in view.silent}
        return not any(each.rollout.state == "goes on" for each in held) and not any(server in away for server, _ in self.places)

    def _draw(self, gone: Sequence[str], lines: Sequence[str], size: os.terminal_size) -> None:
        """The lines over those that were drawn last; what is told of those that are gone stays above them."""
        most = max(1, size.lines - 2)
        shown = lines if len(lines) <= most else [*lines[:most - 1], f".. and {len(lines) - most + 1} more"]
        up = f"\x1b[{self.drawn}A" if self.drawn else ""
        self.drawn = len(shown)
        self.desk.say(up + "\n".join(cut(line, size.columns) + CLEAR_BEHIND for line in [*gone, *shown]) + CLEAR_BELOW)

    def _tell(self, view: RolloutView, held: Sequence[Held], gone: Sequence[str]) -> None:
        if self.desk.out.isatty():
            lines = [*bars(held, view.are_several), *(plain(str(why)) for _, why in view.silent)]
            self._draw(gone, lines, os.get_terminal_size(self.desk.out.fileno()))
            return
        moment = time.strftime("%H:%M:%S")
        for each in held:
            words = progress_words(each.rollout) + (f" at {each.server}" if view.are_several else "")
            if self.told.get(each.place) != words:
                self.desk.say(f"{moment}  {words}")
            self.told[each.place] = words
        for address, why in view.silent:
            if address not in self.silent:
                self.desk.warn(str(why))
        self.silent = {address for address, _ in view.silent}
        for line in gone:
            self.desk.warn(line)


def follow_rollouts(desk: Desk, ids: Sequence[str], seconds: float, pause: Callable[[float], None] = time.sleep) -> None:
    """Draws rollouts each second until none of them goes on, or for so many seconds where that isn't 0. One that no agent joined yet goes on."""
    end = time.monotonic() + seconds
    view = look(desk.fleet)
    view.need_a_server()
    following = Following(desk, ids, set(), [], {}, set())
    while True:
        began = time.monotonic()
        held = following.take(view)
        if following.is_over(view, held):
            _end(desk, ids, view, held, following)
            return
        if seconds and time.monotonic() >= end:
            told = "; ".join(progress_words(each.rollout) for each in held)
            raise TimeOver(f"not over within {seconds:g} seconds: {told or 'no server that answers holds it'}")
        pause(max(0.0, began + PAUSE - time.monotonic()))
        view = look(desk.fleet)


def _end(desk: Desk, ids: Sequence[str], view: RolloutView, held: Sequence[Held], following: Following) -> None:
    """How they ended: well, or by a Problem."""
    if not held and not following.gone:
        if ids:
            raise _no_such(ids, view)
        desk.say("there is no rollout")
    if ids and following.gone:
        names = ", ".join(sorted({name for _, name in following.gone}))
        raise NoSuchRollout(f"{names} isn't there any more at {len(following.gone)} of {len(view.servers)} servers")
    halted = [f"{each.rollout.id} at {each.server}" for each in held if each.rollout.is_halted]
    failed = sum(each.rollout.failed for each in held)
    if halted:
        raise OfferFailed(f"halted: {', '.join(halted)}; {failed} agents failed")
    if failed:
        raise OfferFailed(f"{failed} agents failed")


def progress_words(rollout: Rollout) -> str:
    """How far a rollout is, in a server's words."""
    told = f"{rollout.id} waiting {rollout.waiting} offered {rollout.offered} applied {rollout.applied} failed {rollout.failed}"
    return told + (" halted" if rollout.is_halted else "")


def bars(held: Sequence[Held], servers: bool) -> List[str]:
    """A line with a bar for each rollout."""
    rows = [[each.rollout.id, *([str(each.server)] if servers else []), f"[{bar(each.rollout)}]", _progress(each.rollout)] for each in held]
    return aligned(rows, None)


def bar(rollout: Rollout) -> str:
    """A rollout's agents as a bar of text."""
    counts = (rollout.applied, rollout.failed, rollout.offered, rollout.waiting)
    return "".join(sign * cells for sign, cells in zip(BAR_SIGNS, parts_of(counts, BAR))).ljust(BAR)


def _progress(rollout: Rollout) -> str:
    parts = [f"{rollout.applied} of {rollout.members} applied", f"{rollout.offered} offered", f"{rollout.waiting} wait", f"{rollout.failed} failed"]
    return ", ".join(parts + (["halted"] if rollout.is_halted else []))


def rollout_table(held: Sequence[Held], servers: bool) -> List[str]:
    """A row for each rollout, with its server where there are several."""
    rows = [["ROLLOUT", "STATE", "WAITING", "OFFERED", "APPLIED", "FAILED", *(["SERVER"] if servers else [])]]
    for server, rollout in ((each.server, each.rollout) for each in held):
        numbers = [str(number) for number in (rollout.waiting, rollout.offered, rollout.applied, rollout.failed)]
        rows.append([rollout.id, rollout.state, *numbers, *([str(server)] if servers else [])])
    return aligned(rows, None)


def rollout_json(each: Held) -> Dict[str, object]:
    """A rollout, as `rollout list --json` writes it."""
    rollout = each.rollout
    counts = {"waiting": rollout.waiting, "offered": rollout.offered, "applied": rollout.applied, "failed": rollout.failed}
    return {"id": rollout.id, "server": str(each.server), "state": rollout.state, **counts}


def member_table(members: Iterable[Tuple[Address, Member]], agents: Dict[str, Agent], servers: bool) -> List[str]:
    """A row for each agent of a rollout, with what is known of it now."""
    rows = [["AGENT", "HOST", "OFFER", "STATE", "HEALTH", "AGE", *(["SERVER"] if servers else []), "ERROR"]]
    for server, member in members:
        agent = agents.get(member.uid)
        told = {**member_json(server, member, agent), "age": age_words(agent.age if agent else None)}
        names = ("uid", "host", "offer", "state", "health", "age", *(["server"] if servers else []), "error")
        rows.append([str(told[name]) for name in names])
    return aligned(rows, None)


def member_json(server: Address, member: Member, agent: Optional[Agent]) -> Dict[str, object]:
    """An agent of a rollout. `offer` is what became of the rollout's offer; `error` is what the agent says of the configuration it was offered last."""
    summary = agent.summary if agent else None
    return {
        "uid": member.uid, "server": str(server), "offer": member.fate,
        "host": summary.attribute("host.name") if summary else "",
        "state": agent.listed.presence if agent else "", "health": agent.listed.health if agent else "",
        "age": agent.age.seconds if agent and agent.age else None,
        "error": summary.config.error if summary else "",
    }


def _looked(desk: Desk) -> RolloutView:
    """The rollouts. A server that doesn't answer is told, and the others are served."""
    view = look(desk.fleet)
    view.need_a_server()
    for _, why in view.silent:
        desk.warn(str(why))
    return view


def _no_such(ids: Sequence[str], view: RolloutView) -> NoSuchRollout:
    return NoSuchRollout(f"there is no rollout {', '.join(ids)}" + ("; a server that didn't answer may hold it" if view.silent else ""))


def _need_places(plan: Plan, view: View, rollouts: RolloutView) -> None:
    """A Problem where not every server can be told to begin the rollout."""
    for _, why in (*view.silent, *rollouts.silent):
        raise type(why)(f"{why}; nothing was begun")
    for each in rollouts.of([plan.id]):
        raise Refused(f"the server at {each.server} has a rollout {plan.id} already; nothing was begun")
    for address, count in Counter(each.server for each in rollouts.held).items():
        if count >= MOST_ROLLOUTS:
            raise Refused(f"the server at {address} has {count} rollouts, and takes no more: finish one; nothing was begun")


def _warn_of_moved(desk: Desk, view: View) -> None:
    """Tells of records of agents that report elsewhere: they join, are offered, and say nothing."""
    for address, count in Counter(agent.server for agent in view.former if agent.is_here).items():
        desk.warn(f"{address} still holds {count} agents that report to another server: they may join there, "
                  "and keep places of the width until they are forgotten there")


def _warn_of_others(desk: Desk, rollouts: RolloutView, joining: Sequence[Agent]) -> None:
    """Tells of agents that other rollouts have still to do with."""
    places = {(agent.server, agent.uid) for agent in joining}
    for each in rollouts.held:
        if each.rollout.waiting or each.rollout.offered:
            members = desk.fleet.session_at(each.server).members(each.rollout.id)
            count = sum(member.fate in ("waiting", "offered") and (each.server, member.uid) in places for member in members)
            if count:
                desk.warn(f"{count} of the agents wait for the offer of the rollout {each.rollout.id} at {each.server}, or have it: "
                          "of two offers the last one counts")


def _terms(plan: Plan, view: View) -> str:
    servers = len(view.servers)
    where = f" at each of {servers} servers, halted there" if servers > 1 else ", halted"
    return f"{plan.width} at a time{where} once more than {plan.allowed} failed"
