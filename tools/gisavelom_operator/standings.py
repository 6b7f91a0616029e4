"""How agents stand to a wanted state, by their own words and by what waits for them, and whose turn it is."""
from __future__ import annotations

from collections import Counter
from dataclasses import dataclass
from typing import Dict, List, Mapping, Optional, Sequence, Tuple

from .agents import ACCEPTS_REMOTE_CONFIG, REPORTS_EFFECTIVE_CONFIG, REPORTS_REMOTE_CONFIG, ConfigStatus, Summary
from .fleet import Agent
from .lines import Address
from .wanted import Line, WantedState

# How an agent stands.
APPLIED = "applied"    # it says that it has what is wanted, and doesn't say that it is unhealthy
OFFERED = "offered"    # that was ordered, and it hasn't said what came of it
FAILED = "failed"      # it says that this failed
ILL = "ill"            # it says that it has it, and isn't healthy
DIFFERS = "differs"    # it has something else, and what is wanted wasn't ordered
REPLACED = "replaced"  # it has what is wanted, and something else was ordered since
LEFT = "left"          # it said that it goes
UNABLE = "unable"      # its capabilities lack AcceptsRemoteConfig
MUTE = "mute"          # the line has a width, and the agent never says what came of an offer
ALONE = "alone"        # the table leaves it alone
UNNAMED = "unnamed"    # no line finds it
UNKNOWN = "unknown"    # its server doesn't answer, or can't show it
STATES = (APPLIED, OFFERED, FAILED, ILL, DIFFERS, REPLACED, LEFT, UNABLE, MUTE, ALONE, UNNAMED, UNKNOWN)
ORDERED = (DIFFERS, REPLACED)

Place = Tuple[Address, str]  # a server, and an agent's identifier
Waiting = Mapping[Place, str]  # the hash of the configuration that waits there, empty for none; a place is missing where that isn't known


@dataclass(frozen=True)
class Standing:
    """An agent, the line that counts for it, and how it stands."""

    agent: Agent
    line: Optional[Line]
    state: str
    told: str = ""  # the agent's words on a failure


@dataclass(frozen=True)
class Turn:
    """Of a line: how many agents stand how, who is to be ordered now, and why others that differ have to wait."""

    line: Line
    counts: Mapping[str, int]
    now: Tuple[Standing, ...]
    waiting: int  # of those that differ
    is_halted: bool
    is_held: bool  # a server is silent that may have some of its agents, so nobody knows how many have the offer


def standing_of(agent: Agent, line: Optional[Line], wanted: WantedState, waiting: Waiting) -> Standing:
    """How an agent stands for which this line of what is wanted counts."""
    summary = agent.summary
    if line is None:
        return Standing(agent, None, UNNAMED if wanted.is_known(agent) else UNKNOWN)
    waits = waiting.get((agent.server, agent.uid))
    if line.is_alone:
        return Standing(agent, line, ALONE)
    if summary is None or waits is None:
        return Standing(agent, line, UNKNOWN)
    if not agent.is_here:
        return Standing(agent, line, OFFERED if waits == line.hash else LEFT)
    if not summary.has(ACCEPTS_REMOTE_CONFIG):
        return Standing(agent, line, UNABLE)
    state, told = _told(agent, summary, line)
    if state and waits not in ("", line.hash):
        return Standing(agent, line, REPLACED)
    if state:
        return Standing(agent, line, state, told)
    if line.wave and not summary.has(REPORTS_REMOTE_CONFIG) and not summary.has(REPORTS_EFFECTIVE_CONFIG):
        return Standing(agent, line, MUTE)
    return Standing(agent, line, OFFERED if waits == line.hash else DIFFERS)


def _told(agent: Agent, summary: Summary, line: Line) -> Tuple[str, str]:
    """What an agent says of the wanted configuration, with its words on a failure; an empty state where it says nothing of it.

    Where it tells no status its effective configuration is compared.
    """
    config = summary.config
    if config == ConfigStatus():
        if summary.effective != line.files:
            return "", ""
    elif config.hash != line.hash:
        return "", ""
    elif config.state == "failed":
        return FAILED, config.error or "it says no more"
    elif config.state != "applied":
        return OFFERED, ""
    return (ILL if agent.listed.health == "unhealthy" else APPLIED), ""


def turn_of(line: Line, standings: Sequence[Standing], is_silent: bool) -> Turn:
    """Who is to be ordered now, of the agents of one line in ascending order of their identifiers. `is_silent` says that a server may have agents and doesn't
    answer.

    Two programs that see the same choose the same agents. Those that are unhealthy come last, so that a wave is judged by agents that were well.
    """
    counts = Counter(each.state for each in standings)
    recalled = [each for each in standings if each.state == REPLACED]
    differing = sorted((each for each in standings if each.state == DIFFERS), key=lambda each: each.agent.listed.health == "unhealthy")
    is_halted = bool(line.wave and counts[FAILED] > line.wave.allowed)
    is_held = bool(line.wave and is_silent and not is_halted and differing)
    room = len(differing)
    if line.wave:
        room = 0 if is_halted or is_held else max(0, line.wave.width - counts[OFFERED] - counts[FAILED] - counts[ILL])
    now = tuple(recalled + differing[:room])
    return Turn(line, counts, now, len(differing) - len(differing[:room]), is_halted, is_held)


def turns_of(wanted: WantedState, standings: Sequence[Standing], is_silent: bool) -> List[Turn]:
    """The turn of each line of the table."""
    by_line: Dict[int, List[Standing]] = {line.number: [] for line in wanted.lines}
    for each in standings:
        if each.line:
            by_line[each.line.number].append(each)
    return [turn_of(line, by_line[line.number], is_silent) for line in wanted.lines]
