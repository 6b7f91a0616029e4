"""The commands that bring a fleet to a wanted state and tell how it stands to it."""
from __future__ import annotations

import difflib
import json
import time
from collections import Counter
from dataclasses import dataclass
from typing import Dict, Iterable, Iterator, List, Optional, Sequence, Tuple

from .agents import File, Summary, details_of
from .commands import Desk, warn_of_names
from .offers import OfferedConfig
from .problems import NotRight, OfferFailed, Problem, TimeOver
from .rounds import Done, Picture, Rounds
from .sources import Source
from .standings import ALONE, APPLIED, DIFFERS, FAILED, ILL, LEFT, MUTE, OFFERED, ORDERED, REPLACED, STATES, UNABLE, UNKNOWN, UNNAMED, Standing, Turn
from .tables import aligned, content_of, plain
from .wanted import Line, WantedState

MOST_TOLD = 20   # agents that are named one by one at a time
MOST_TRIES = 5   # looks of a single run, where something else is wanted in the middle
SHOWN = 12       # digits of a hash
WORDS = {
    APPLIED: "applied", OFFERED: "offered", FAILED: "failed", ILL: "have it and are ill", DIFFERS: "differ", REPLACED: "have another offer", LEFT: "have left",
    UNABLE: "take no configurations", MUTE: "never tell what they have", ALONE: "are left alone", UNNAMED: "are in no line", UNKNOWN: "can't be looked at",
}


def apply_once(desk: Desk, source: Source, is_dry: bool, yes: bool) -> None:
    """Orders what differs now, and ends."""
    rounds = Rounds(desk.fleet, source)
    for _ in range(MOST_TRIES):
        picture = rounds.look()
        if is_dry:
            desk.say(*planned(picture))
            return
        if picture.now or picture.forsaken:
            desk.sure(f"order {_count(picture)}, as {source} wants it?", yes)
        done = rounds.order(picture)
        if done.is_whole:
            break
        desk.warn("something else is wanted meanwhile: begun anew")
    else:
        raise NotRight(f"{source} changes all the time")
    desk.say(*told(picture))
    _tell_silent(desk, picture)
    _tell_problems(desk, done)
    if done.problems:
        raise type(done.problems[0][1])(f"{len(done.problems)} orders weren't taken: {done.problems[0][1]}")
    halted = [str(turn.line.number) for turn in picture.turns if turn.is_halted]
    if halted:
        raise OfferFailed(f"halted, since more agents failed than is allowed: line {', '.join(halted)}")


@dataclass
class Watching:
    """What was told while a wanted state is watched, so that only what is new is."""

    desk: Desk
    lines: Tuple[str, ...] = ()
    problems: Tuple[str, ...] = ()
    failed: Tuple[Tuple[str, str], ...] = ()

    def tell(self, picture: Picture, done: Done) -> None:
        """What has changed since the last round."""
        lines, failed = tuple(told(picture, failures=False)), tuple(_failed(picture))
        if lines != self.lines:
            self._say(line for line in lines if line not in self.lines)
        fresh = [each for each in failed if each not in self.failed]
        self._say(_some([f"{uid} failed: {plain(words)}" for uid, words in fresh]))
        self.lines, self.failed = lines, failed
        silent = [str(why) for _, why in picture.view.silent]
        self.warn([*silent, *_named(done)])

    def warn(self, problems: Sequence[str]) -> None:
        """The problems that weren't there in the last round; and that all is well again, where there were some."""
        for problem in problems:
            if problem not in self.problems:
                self.desk.warn(problem)
        if self.problems and not problems:
            self._say(["the former problems are over"])
        self.problems = tuple(problems)

    def _say(self, lines: Iterable[str]) -> None:
        moment = time.strftime("%H:%M:%S")
        self.desk.say(*(f"{moment}  {line}" for line in lines))


def apply_watching(desk: Desk, source: Source, every: float, yes: bool) -> None:
    """Orders what differs, again and again, until the operator breaks it off."""
    for _ in _rounds(desk, source, every, yes):
        pass


def apply_waiting(desk: Desk, source: Source, every: float, yes: bool, seconds: float) -> None:
    """Orders what differs until every agent that the table finds, and one at least, has what is wanted; or for so many seconds."""
    end = time.monotonic() + seconds
    for came in _rounds(desk, source, every, yes):
        if came and is_over(*came):
            counts = _counts(came[0].standings)
            if counts[FAILED]:
                raise OfferFailed(f"{counts[FAILED]} agents failed what is wanted, {counts[DIFFERS]} others wait")
            return
        if time.monotonic() >= end:
            raise TimeOver(f"not all agents have what is wanted within {seconds:g} seconds")


def is_over(picture: Picture, done: Done) -> bool:
    """Whether agents were found, and each of them has what is wanted, or failed it, or waits in a line that is halted."""
    is_found = any(turn.counts[state] for turn in picture.turns for state in (APPLIED, FAILED, ILL))
    is_moving = any(turn.counts[state] for turn in picture.turns for state in (OFFERED, REPLACED, UNKNOWN) + (() if turn.is_halted else (DIFFERS,)))
    return is_found and not is_moving and not done.problems and done.is_whole and not picture.view.silent


def _rounds(desk: Desk, source: Source, every: float, yes: bool) -> Iterator[Optional[Tuple[Picture, Done]]]:
    """Rounds without end, of which each gives what it saw and did. Where the fleet or what is wanted can't be had nothing is ordered, and it gives none."""
    desk.sure(f"order what {source} wants, as long as this program runs?", yes)
    rounds, watching = Rounds(desk.fleet, source), Watching(desk)
    while True:
        began = time.monotonic()
        came: Optional[Tuple[Picture, Done]] = None
        try:
            picture = rounds.look()
            came = picture, rounds.order(picture)
            watching.tell(*came)
        except Problem as why:
            watching.warn([str(why)])
        yield came
        source.wait(max(0.0, began + every - time.monotonic()))


def show_difference(desk: Desk, source: Source) -> None:
    """The agents that haven't what is wanted."""
    picture = Rounds(desk.fleet, source).look()
    rows = [_row(each) for each in picture.standings if each.state in (*ORDERED, OFFERED, FAILED, MUTE, UNKNOWN) and (each.line or each.state == UNKNOWN)]
    desk.say(*aligned([["AGENT", "HOST", "LINE", "IS", "HAS", "WANTED"], *rows]))
    _tell_silent(desk, picture)


def show_agents_difference(desk: Desk, source: Source, named: str) -> None:
    """The files that one agent tells beside those that are wanted of it, line by line."""
    wanted = source.read()
    agent = desk.look().found(named)
    line = wanted.line_of(agent)
    if line is None or line.config is None:
        desk.say(f"nothing is wanted of {agent.uid}")
        return
    details = details_of(desk.fleet.session(agent).show(agent.uid))
    config = details.summary.config
    desk.say(f"{agent.uid}, line {line.number}: wanted is {line.hash}, the agent says {config.state}{f' of {config.hash}' if config.hash else ''}")
    desk.say(*map(plain, differences(details.files, line.config)))


def show_status(desk: Desk, source: Source, as_json: bool) -> None:
    """How many agents of each line stand how, and which have failed."""
    picture = Rounds(desk.fleet, source).look()
    if as_json:
        desk.say(json.dumps(picture_json(picture), indent=2))
    else:
        desk.say(*status_table(picture), *_some([f"{uid} failed: {plain(words)}" for uid, words in _failed(picture)]))
    _tell_silent(desk, picture)


def show_table(desk: Desk, wanted: WantedState) -> None:
    """The lines of a wanted state that is right."""
    rows = [[str(line.number), "alone" if line.is_alone else line.hash[:SHOWN], _wave(line), line.said] for line in wanted.lines]
    desk.say(*aligned([["LINE", "HASH", "WAVE", "SAYS"], *rows]))
    for line in wanted.lines:
        if line.config:
            warn_of_names(desk, line.config)


def told(picture: Picture, failures: bool = True) -> List[str]:
    """The fleet beside the table, line by line, with what a round orders; and the agents that failed."""
    lines = [f"line {turn.line.number}: {_turn(turn)}" for turn in picture.turns if not turn.line.is_alone]
    others = _words(_counts(each for each in picture.standings if each.line is None or each.line.is_alone))
    lines += [f"besides: {others}"] if others else []
    if picture.forsaken:
        lines.append(f"withdrawn for {len(picture.forsaken)} agents where they have been")
    return lines + (_some([f"{uid} failed: {plain(words)}" for uid, words in _failed(picture)]) if failures else [])


def planned(picture: Picture) -> List[str]:
    """What a round would order."""
    lines = [f"{each.agent.uid} would be offered what line {each.line.number} wants, hash {each.line.hash}" for each in picture.now if each.line]
    lines += [f"{agent.uid}: what stands at {agent.server}, where it has been, would be withdrawn" for agent in picture.forsaken]
    return lines + [f"line {turn.line.number}: {_turn(turn, 'would be ordered')}" for turn in picture.turns if not turn.line.is_alone]


def status_table(picture: Picture) -> List[str]:
    """A row for each line of the table, and one for the agents that none finds."""
    heads = ["LINE", "HASH", "APPLIED", "OFFERED", "FAILED", "ILL", "DIFFER", "OTHERS", "", "SAYS"]
    rows = [heads]
    for turn in picture.turns:
        others = sum(count for state, count in turn.counts.items() if state not in (APPLIED, OFFERED, FAILED, ILL, *ORDERED))
        differ = turn.counts[DIFFERS] + turn.counts[REPLACED]
        numbers = [str(number) for number in (turn.counts[APPLIED], turn.counts[OFFERED], turn.counts[FAILED], turn.counts[ILL], differ, others)]
        rows.append([str(turn.line.number), turn.line.hash[:SHOWN], *numbers, _why(turn) or "-", turn.line.said])
    unnamed = sum(each.line is None for each in picture.standings)
    if unnamed:
        rows.append([*["-"] * 7, str(unnamed), "-", "agents in no line"])
    return aligned(rows)


def picture_json(picture: Picture) -> Dict[str, object]:
    """The fleet beside what is wanted, as `wanted status --json` writes it."""
    lines = [{
        "line": turn.line.number, "says": turn.line.said, "hash": turn.line.hash, "halted": turn.is_halted, "held": turn.is_held,
        "agents": {state: turn.counts[state] for state in STATES if turn.counts[state]},
    } for turn in picture.turns]
    agents = [{
        "uid": each.agent.uid, "server": str(each.agent.server), "line": each.line.number if each.line else None, "is": each.state, "told": each.told,
    } for each in picture.standings]
    silent = [str(address) for address, _ in picture.view.silent]
    return {"wanted": picture.wanted.mark, "lines": lines, "agents": agents, "silent": silent}


def differences(files: Sequence[File], config: OfferedConfig) -> List[str]:
    """Both sets of files, name by name, as `diff -u` shows them."""
    has = {file.name: file.body for file in files}
    wants = {file.name: file.body for file in config.files}
    lines: List[str] = []
    for name in sorted({*has, *wants}):
        both = [content_of(body[name])[1].splitlines() if name in body else [] for body in (has, wants)]
        names = [f"{front}/{name}" if name in body else "/dev/null" for front, body in (("told", has), ("wanted", wants))]
        lines += difflib.unified_diff(both[0], both[1], names[0], names[1], lineterm="")
    return lines or ["the same files"]


def _turn(turn: Turn, verb: str = "ordered now") -> str:
    counts = Counter(turn.counts)
    counts[DIFFERS] = turn.waiting
    counts[REPLACED] = 0
    parts = [f"{len(turn.now)} {verb}"] if turn.now else []
    waiting = f" ({_why(turn)})" if turn.waiting else ""
    parts += [f"{counts[state]} {WORDS[state]}{waiting if state == DIFFERS else ''}" for state in STATES if counts[state]]
    return ", ".join(parts) + (", halted" if turn.is_halted and not turn.waiting else "") or "no agents"


def _why(turn: Turn) -> str:
    """Why those that differ have to wait."""
    if turn.is_halted:
        return "halted"
    return "held: a server is silent" if turn.is_held else "wait their turn" if turn.waiting else ""


def _words(counts: Counter[str]) -> str:
    return ", ".join(f"{counts[state]} {WORDS[state]}" for state in STATES if counts[state])


def _row(each: Standing) -> List[str]:
    summary = each.agent.summary or Summary()
    has = f"{summary.config.hash[:SHOWN]} {summary.config.state}" if summary.config.hash else summary.config.state
    line, wanted = (str(each.line.number), each.line.hash[:SHOWN]) if each.line else ("", "")
    return [each.agent.uid, summary.attribute("host.name"), line, each.state, has, wanted]


def _wave(line: Line) -> str:
    return f"{line.wave.width}/{line.wave.allowed}" if line.wave else ""


def _counts(standings: Iterable[Standing]) -> Counter[str]:
    return Counter(each.state for each in standings)


def _count(picture: Picture) -> str:
    parts = [f"{len(picture.now)} offers"] if picture.now else []
    parts += [f"{len(picture.forsaken)} withdrawals"] if picture.forsaken else []
    return " and ".join(parts)


def _failed(picture: Picture) -> List[Tuple[str, str]]:
    return [(each.agent.uid, each.told) for each in picture.standings if each.state == FAILED]


def _some(lines: Sequence[str]) -> List[str]:
    """The first of the lines, and how many there are besides."""
    return [*lines[:MOST_TOLD], *([f".. and {len(lines) - MOST_TOLD} more"] if len(lines) > MOST_TOLD else [])]


def _named(done: Done) -> List[str]:
    """Each problem once, with how many orders met it."""
    counts = Counter(str(why) for _, why in done.problems)
    return [f"{count} orders weren't taken: {why}" for why, count in counts.items()]


def _tell_problems(desk: Desk, done: Done) -> None:
    for words in _named(done):
        desk.warn(words)


def _tell_silent(desk: Desk, picture: Picture) -> None:
    for _, why in picture.view.silent:
        desk.warn(str(why))
