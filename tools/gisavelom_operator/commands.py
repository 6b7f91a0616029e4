"""The commands, over a fleet and the streams that they write to."""
from __future__ import annotations

import json
import os
import re
import time
from collections import Counter
from dataclasses import dataclass
from typing import Callable, List, Optional, Sequence, Set, TextIO, Tuple

from .agents import (
    ACCEPTS_CONNECTION_SETTINGS,
    ACCEPTS_PACKAGES,
    ACCEPTS_REMOTE_CONFIG,
    ACCEPTS_RESTART,
    CAPABILITIES,
    details_of,
)
from .fleet import Agent, Fleet, View, compact, matching, names_attribute
from .lines import Address, endpoint, word
from .metrics import metrics_text
from .offers import OfferedConfig, OfferedPackage, OfferedSettings, config_outcome, packages_hash, packages_words, packages_outcome
from .problems import NoServer, NoSuchAgent, NotHere, NotMeant, OfferFailed, Problem, Refused, TimeOver, WordsRefused, reason
from .tables import agent_json, count_table, counts_json, cut, details_json, details_page, fleet_table, plain, sorting

PAUSE = 1.0  # seconds between two looks, where something is watched or waited for
GOOD_NAME = re.compile(r"[A-Za-z0-9_-][A-Za-z0-9._-]{0,254}")  # docs/AGENT.md, "What lies where"
LEAST_SIGNS = 4  # of an identifier in an order, so that a slip of the hand finds nobody

CLEAR_BEHIND, HOME, CLEAR_BELOW = "\x1b[K", "\x1b[H", "\x1b[J"


@dataclass(frozen=True)
class Desk:
    """What a command works with."""

    fleet: Fleet
    out: TextIO
    err: TextIO
    asked: TextIO  # where an operator answers

    def say(self, *lines: str) -> None:
        for line in lines:
            print(line, file=self.out)
        self.out.flush()

    def warn(self, words: str) -> None:
        print(f"operator: {plain(words)}", file=self.err, flush=True)

    def look(self, summaries: bool = True, ages: bool = False) -> View:
        """The fleet. A server that doesn't answer is told, and the others are served; where none answers there is nothing to do."""
        view = self.fleet.look(summaries, ages)
        view.need_a_server()
        for _, why in view.silent:
            self.warn(str(why))
        return view

    def one(self, words: str, ages: bool = False) -> Agent:
        """The one agent that is named so, by a beginning of its identifier or by an attribute."""
        return self.look(summaries=names_attribute(words), ages=ages).found(words)

    def sure(self, question: str, yes: bool) -> None:
        """Has the operator say that it is meant: on a terminal by an answer, else by --yes."""
        if yes:
            return
        if not self.asked.isatty():
            raise NotMeant("where nobody can be asked this takes --yes")
        print(f"{plain(question)} [y/N] ", file=self.err, end="", flush=True)
        if self.asked.readline().strip().lower() not in ("y", "yes"):
            raise NotMeant("nothing was done")

    def meant(self, named: str) -> Agent:
        """The one agent that an order names."""
        need_signs(named)
        return self.one(named)

    def order(self, named: str, verb: str, words: str, capability: int) -> Agent:
        """Has the server of the one agent that is named so do something for it, which needs a capability of the agent."""
        agent = self.meant(named)
        summary = self.fleet.summary(agent)
        self.fleet.session(agent).order(f"{verb} {agent.uid} {words}".rstrip(" "))
        if summary and not summary.has(capability):
            self.warn(f"the agent's capabilities lack {CAPABILITIES[capability]}: nothing is sent to it until they have it")
        return agent


def need_signs(named: str) -> None:
    """WordsRefused where an order names agents by too short a beginning."""
    if not names_attribute(named) and len(compact(named)) < LEAST_SIGNS:
        raise WordsRefused(f"an order takes at least {LEAST_SIGNS} signs of an identifier, or KEY=VALUE")


@dataclass(frozen=True)
class Listing:
    """Which agents are listed, and how."""

    brief: bool = False
    where: Tuple[Tuple[str, str], ...] = ()
    health: str = ""       # healthy, unhealthy or unknown; empty for all
    column: str = "agent"  # by which they are sorted
    presence: str = ""     # here or left; empty for all
    older: Optional[float] = None  # only those whose last report was taken so many seconds ago at least

    def takes(self, agent: Agent) -> bool:
        """Whether the agent is listed, by what is told of it without being asked for."""
        is_old = self.older is None or agent.age is not None and agent.age.seconds >= self.older
        return is_old and self.health in ("", agent.listed.health) and self.presence in ("", agent.listed.presence)

    def chosen(self, view: View) -> List[Agent]:
        """The agents, in their order."""
        return sorted(filter(self.takes, _chosen(view, self.where)), key=sorting(self.column))

    def table(self, view: View, now: Optional[float] = None) -> List[str]:
        """The fleet's table; where a moment is given, and some server tells no ages, with how long no report was seen here."""
        return fleet_table(self.chosen(view), self.brief, len(view.servers) > 1, now if view.ageless else None)

    def warn(self, desk: Desk, view: View) -> None:
        """Tells of servers whose agents can't be found by their ages."""
        for address in view.ageless if self.older is not None else ():
            desk.warn(f"the server at {address} is of a former version, which tells no ages: its agents aren't listed")


def list_agents(desk: Desk, listing: Listing, as_json: bool) -> None:
    """The fleet as a table or as JSON."""
    view = desk.look(summaries=not listing.brief, ages=True)
    listing.warn(desk, view)
    if as_json:
        desk.say(json.dumps([agent_json(agent) for agent in listing.chosen(view)], indent=2))
    else:
        desk.say(*listing.table(view))


def watch_agents(desk: Desk, listing: Listing, pause: Callable[[float], None] = time.sleep) -> None:
    """The fleet's table, drawn each second until the operator breaks it off."""
    listing.warn(desk, desk.look(summaries=False, ages=True))
    while True:
        began = time.monotonic()
        view = desk.fleet.look(summaries=not listing.brief, ages=True)
        lines = _head(view) + listing.table(view, time.monotonic())
        desk.say(*(_screen(os.get_terminal_size(desk.out.fileno()), lines) if desk.out.isatty() else [*lines, ""]))
        pause(max(0.0, began + PAUSE - time.monotonic()))


def show_agent(desk: Desk, named: str, form: str) -> None:
    """All that is known of one agent: for people, as JSON, or as the lines that its server gives."""
    agent = desk.one(named, ages=form != "lines")
    lines = desk.fleet.session(agent).show(agent.uid)
    if form == "lines":
        desk.say(*(plain(line) if desk.out.isatty() else line for line in lines))
    elif form == "json":
        desk.say(json.dumps(details_json(agent, details_of(lines)), indent=2))
    else:
        desk.say(*details_page(agent, details_of(lines)))


def offer_config(desk: Desk, named: str, config: OfferedConfig) -> None:
    """Offers one agent a configuration."""
    warn_of_names(desk, config)
    agent = desk.order(named, "config", config.words(), ACCEPTS_REMOTE_CONFIG)
    desk.say(f"{agent.uid} is offered {plain(config.told())}")


def offer_config_to_many(desk: Desk, config: OfferedConfig, where: Sequence[Tuple[str, str]], yes: bool, is_dry: bool) -> None:
    """Offers a configuration to all agents, or to those with these attributes."""
    warn_of_names(desk, config)
    offered = plain(config.told())
    order = ForMany(f" {config.words()}", "config", ACCEPTS_REMOTE_CONFIG, f"offer {offered} to", f"offered {offered}", "offered", "take no configurations")
    order_many(desk, order, _chosen(desk.look(), where), yes, is_dry)


def restart_each(desk: Desk, named: str, yes: bool, is_dry: bool) -> None:
    """Has each agent that is named so be told to restart."""
    need_signs(named)
    order = ForMany("", "restart", ACCEPTS_RESTART, "restart", "told to restart with its next report", "told to restart", "take no restarts")
    order_many(desk, order, desk.look().all_found(named), yes, is_dry)


@dataclass(frozen=True)
class ForMany:
    """An order for many agents, and what is said of it."""

    words: str       # behind the identifier
    verb: str
    capability: int  # that an agent has to have
    question: str    # before the number of agents
    done: str        # behind an agent that `is` or `would be`
    counted: str     # behind the number of those that were ordered
    unable: str      # behind the number of those without the capability


def order_many(desk: Desk, order: ForMany, chosen: Sequence[Agent], yes: bool, is_dry: bool) -> None:
    """Orders the same of many agents, one by one. It goes on behind a refusal; a dry one only tells."""
    if not chosen:
        raise NoSuchAgent("there is no such agent")
    here = [agent for agent in chosen if agent.is_here]
    able = [agent for agent in here if not agent.summary or agent.summary.has(order.capability)]
    rest = f"{len(chosen) - len(here)} have left, {len(here) - len(able)} {order.unable}"
    if is_dry:
        desk.say(*(f"{agent.uid} would be {order.done}" for agent in able), f"{len(able)} would be {order.counted}, {rest}")
        return
    desk.sure(f"{order.question} {len(able)} agents?", yes)
    lost: Set[Address] = set()
    problems: List[Problem] = []
    for agent in able:
        problem = _offer_to(desk, agent, f"{order.verb} {agent.uid}{order.words}", lost)
        if problem:
            problems.append(problem)
            desk.warn(f"{agent.uid}: {problem}")
        else:
            desk.say(f"{agent.uid} is {order.done}")
    desk.say(f"{len(able) - len(problems)} {order.counted}, {len(problems)} not, {rest}")
    if problems:
        raise type(problems[0])(f"{len(problems)} of {len(able)} orders weren't taken")


def warn_of_names(desk: Desk, config: OfferedConfig) -> None:
    """Tells which names this project's agents refuse."""
    for file in config.files:
        if file.name and not GOOD_NAME.fullmatch(file.name):
            desk.warn(f"agents of this project refuse the name {file.name!r}: a good one has 1 to 255 letters, digits, `.`, `_` or `-` and begins with no `.`")


def _offer_to(desk: Desk, agent: Agent, order: str, lost: Set[Address]) -> Optional[Problem]:
    """What went wrong; a server that is lost isn't tried for its other agents."""
    if agent.server in lost:
        return NoServer(f"the server at {agent.server} is lost")
    try:
        desk.fleet.session(agent).order(order)
        return None
    except NoServer as why:
        lost.add(agent.server)
        return why
    except (Refused, NoSuchAgent) as why:
        return why


def offer_packages(desk: Desk, named: str, words: Sequence[str]) -> None:
    """Offers one agent packages, of which the files are here: NAME VERSION URL FILE, once or more."""
    if not words or len(words) % 4:
        raise WordsRefused("packages are given as NAME VERSION URL FILE, once or more")
    packages = [OfferedPackage.read(*words[at:at + 4]) for at in range(0, len(words), 4)]
    agent = desk.order(named, "packages", packages_words(packages), ACCEPTS_PACKAGES)
    for package in packages:
        desk.say(f"{agent.uid} is offered {plain(package.name)} {plain(package.version)}, content {package.content_hash.hex()}")
    desk.say(f"hash {packages_hash(packages)}")


def offer_connection(desk: Desk, named: str, url: str, as_it_is: bool) -> None:
    """Offers one agent another endpoint; as it is also one that this project's agent wouldn't try."""
    agent = desk.order(named, "connect", word(url, "the URL") if as_it_is else endpoint(url), ACCEPTS_CONNECTION_SETTINGS)
    desk.say(f"{agent.uid} is offered the endpoint {plain(url)}")


def offer_settings(desk: Desk, named: str, settings: OfferedSettings) -> None:
    """Offers one agent settings of its connection."""
    agent = desk.order(named, "settings", settings.words(), ACCEPTS_CONNECTION_SETTINGS)
    names = ", ".join(name for name, _ in settings.headers)
    told = [f"the endpoint {settings.url}"] if settings.url else []
    told += [f"a report each {settings.seconds} seconds"] if settings.seconds else []
    told += [f"the headers {names}"] if names else []
    desk.say(f"{agent.uid} is offered {plain(', '.join(told) or 'settings of nothing')}")


def withdraw_offers(desk: Desk, named: str) -> None:
    """Has nothing wait for one agent any more."""
    agent = desk.meant(named)
    desk.fleet.session(agent).order(f"withdraw {agent.uid}")
    desk.say(f"nothing waits for {agent.uid} any more")


def show_waiting(desk: Desk, named: str) -> None:
    """What waits for one agent, a line each."""
    agent = desk.one(named)
    waiting = desk.fleet.session(agent).waits(agent.uid)
    desk.say(*(plain(line) for line in waiting or [f"nothing waits for {agent.uid}"]))


def restart_agent(desk: Desk, named: str) -> None:
    """Has one agent be told to restart."""
    agent = desk.order(named, "restart", "", ACCEPTS_RESTART)
    desk.say(f"{agent.uid} is told to restart with its next report")


def forget_agent(desk: Desk, named: str) -> None:
    """Has each server that holds the one agent forget it, with all that waits for it."""
    need_signs(named)
    view = desk.look(summaries=names_attribute(named))
    agent = view.found(named)
    for each in (agent, *(former for former in view.former if former.uid == agent.uid)):
        desk.fleet.session(each).order(f"forget {each.uid}")
        desk.say(f"{each.uid} is forgotten at {each.server}")


def forget_left(desk: Desk, yes: bool, is_dry: bool) -> None:
    """Has each server forget the agents that have left it. It goes on behind a problem; a dry one only tells."""
    view = desk.look(summaries=False)
    left = [agent for agent in (*view.agents, *view.former) if not agent.is_here]
    if is_dry:
        desk.say(*(f"{agent.uid} would be forgotten at {agent.server}" for agent in left), f"{len(left)} would be forgotten")
        return
    if not left:
        desk.say("no agent has left")
        return
    desk.sure(f"forget the {len(left)} agents that have left?", yes)
    problems: List[Problem] = []
    for address, count in Counter(agent.server for agent in left).items():
        try:
            desk.fleet.session_at(address).order("forget left")
            desk.say(f"those that have left are forgotten at {address}: {count}")
        except Problem as why:
            problems.append(why)
            desk.warn(str(why))
    if problems:
        raise type(problems[0])("not all that have left are forgotten")


def stop_server(desk: Desk, yes: bool) -> None:
    """Ends the one server that is given."""
    session = desk.fleet.only_session()
    if session is None:
        raise WordsRefused("stop ends one server: give one --server")
    desk.sure(f"end the server at {session.address}?", yes)
    session.order("stop")
    desk.say(f"the server at {session.address} ends")


@dataclass(frozen=True)
class Wanted:
    """What is waited for: a word, and for an offer its hash."""

    what: str
    hash: str = ""

    def is_so(self, agent: Agent) -> bool:
        """Whether it is so. OfferFailed where the agent says that the offer failed."""
        if self.what not in ("applied", "installed"):
            return self.what in (agent.listed.presence, agent.listed.health)
        if agent.summary is None:
            return False
        config, packages = agent.summary.config, agent.summary.packages
        if self.what == "applied":
            return self._came(config_outcome(config, self.hash or config.hash), config.error)
        errors = [packages.error, *(f"{each.name}: {each.error}" for each in packages.packages if each.error)]
        is_told = bool(self.hash or packages.packages)
        return is_told and self._came(packages_outcome(packages, self.hash or packages.hash), "; ".join(filter(None, errors)))

    def _came(self, outcome: str, error: str) -> bool:
        # Without a hash what failed may be a former offer, and the one waited for is still to come.
        if outcome == "failed" and self.hash:
            raise OfferFailed(f"the agent says that the offer failed: {error or 'it says no more'}")
        return outcome == self.what


def wait_for(desk: Desk, named: str, wanted: Wanted, seconds: float, pause: Callable[[float], None] = time.sleep) -> None:
    """Looks each second until it is so. Servers that come back, and an agent that comes to another server, are waited for too."""
    end = time.monotonic() + seconds
    view = desk.look(summaries=names_attribute(named))
    former: Optional[Agent] = None if wanted.what == "here" else view.found(named)
    silent = {address for address, _ in view.silent}
    while True:
        agent = _held(desk, view, former.uid if former else named)
        if agent and wanted.is_so(agent):
            desk.say(f"{agent.uid} is {wanted.what}")
            return
        if former and agent and agent.server != former.server:
            desk.warn(f"{agent.uid} reports to {agent.server} now; what {former.server} was told to offer has to be given again there")
        if time.monotonic() >= end:
            raise TimeOver(f"not {wanted.what} within {seconds:g} seconds: {_now(agent)}")
        former = agent or former
        pause(max(0.0, min(PAUSE, end - time.monotonic())))
        view = desk.fleet.look(summaries=former is None and names_attribute(named))
        for address, why in view.silent:
            if address not in silent:
                desk.warn(str(why))
        silent = {address for address, _ in view.silent}


def wait_for_each(desk: Desk, named: str, wanted: Wanted, seconds: float, pause: Callable[[float], None] = time.sleep) -> None:
    """Looks each second until it is so of each agent that is named so, and of one at least, and every server answers."""
    end, silent = time.monotonic() + seconds, ""
    while True:
        view = desk.fleet.look()
        agents = view.all_found(named, or_none=True)
        waiting = [agent for agent in agents if not wanted.is_so(agent)]
        if agents and not waiting and not view.silent:
            desk.say(f"{len(agents)} agents are {wanted.what}")
            return
        told = "; ".join(str(why) for _, why in view.silent)
        if told and told != silent:
            desk.warn(told)
        silent = told
        if time.monotonic() >= end:
            raise TimeOver(f"not {wanted.what} within {seconds:g} seconds: {len(waiting)} of {len(agents)} agents")
        pause(max(0.0, min(PAUSE, end - time.monotonic())))


def _held(desk: Desk, view: View, named: str) -> Optional[Agent]:
    """The agent, where a server holds it now, with what its server shows of it."""
    try:
        agent = view.found(named)
        return Agent(agent.listed, agent.server, desk.fleet.summary(agent))
    except (NoSuchAgent, NoServer):
        return None


def _now(agent: Optional[Agent]) -> str:
    if agent is None:
        return "no server that answers holds the agent"
    told = [agent.listed.presence, agent.listed.health, f"report {agent.listed.number}"]
    if agent.summary:
        told += [f"configuration {agent.summary.config.state}", agent.summary.config.error, f"packages {agent.summary.packages.words()}"]
    return ", ".join(filter(None, told))


def show_counts(desk: Desk, as_json: bool) -> None:
    """How many agents, connections, reports, orders and rollouts each server tells, as a table or as JSON."""
    view = desk.fleet.count()
    for _, why in view.silent:
        desk.warn(str(why))
    view.need_a_server()
    if as_json:
        desk.say(json.dumps(counts_json(view), indent=2))
    else:
        desk.say(*count_table(view))


def write_metrics(desk: Desk, path: str, silences: Sequence[int], each: bool) -> None:
    """The fleet in Prometheus's text format, printed or put whole into a file's place."""
    view = desk.fleet.look(ages=True, counts=True)
    text = metrics_text(view, silences, each)
    if path:
        _replace(path, text)
    else:
        desk.out.write(text)
        desk.out.flush()
    for _, why in view.silent:
        desk.warn(str(why))
    view.need_a_server()


def _replace(path: str, text: str) -> None:
    new = f"{path}.{os.getpid()}.new"
    try:
        with open(new, "w", encoding="utf-8") as file:
            file.write(text)
        os.replace(new, path)
    except OSError as why:
        raise NotHere(f"{path} can't be written: {reason(why)}") from None


def _chosen(view: View, where: Sequence[Tuple[str, str]]) -> List[Agent]:
    return matching(view.agents, where) if where else list(view.agents)


def _head(view: View) -> List[str]:
    here = sum(agent.is_here for agent in view.agents)
    ill = sum(agent.is_here and agent.listed.health == "unhealthy" for agent in view.agents)
    counts = f"{len(view.agents)} agents, {here} here, {len(view.agents) - here} left, {ill} here and unhealthy"
    return [f"{time.strftime('%H:%M:%S')}  {counts}", *(plain(str(why)) for _, why in view.silent), ""]


def _screen(size: os.terminal_size, lines: Sequence[str]) -> List[str]:
    """As much of the lines as a terminal of this size shows, drawn over what stands there."""
    columns, rows = size
    shown = list(lines) if len(lines) < rows else [*lines[:rows - 2], f".. and {len(lines) - rows + 2} more"]
    return [HOME + "\n".join(cut(line, columns) + CLEAR_BEHIND for line in shown) + CLEAR_BELOW]
