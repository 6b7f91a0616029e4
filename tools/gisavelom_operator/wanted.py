"""The wanted state of a fleet: a table of lines `SELECTOR FILE ..`, and the files (tools/README.md, "A wanted state")."""
from __future__ import annotations

import hashlib
import re
import shlex
from collections import deque
from dataclasses import dataclass
from typing import Deque, Dict, List, Mapping, Optional, Tuple

from .agents import files_mark
from .fleet import Agent, attribute_of, compact, matching
from .offers import LARGEST_CONFIG, OfferedConfig, OfferedFile
from .problems import NotRight, WordsRefused

TABLE = "table"  # the table's own path
LEAST_DIGITS = 4
PATH = re.compile(r"[A-Za-z0-9_-][A-Za-z0-9._-]*(?:/[A-Za-z0-9_-][A-Za-z0-9._-]*)*")
KEYWORDS = ("as", "type", "width", "allowed", "alone")
WAVE = "a wave is `width N allowed M` at the line's end, with M below N"


@dataclass(frozen=True)
class Selector:
    """Which agents a line finds: all, or those whose identifier begins so, or those that told all these attributes."""

    beginning: str = ""  # digits in lower case
    attributes: Tuple[Tuple[str, str], ...] = ()

    @property
    def is_all(self) -> bool:
        return not self.beginning and not self.attributes

    def finds(self, agent: Agent) -> bool:
        if self.attributes:
            return bool(matching([agent], self.attributes))
        return compact(agent.uid).startswith(self.beginning)

    def is_known(self, agent: Agent) -> bool:
        """Whether what is known of the agent tells whether it is found."""
        return agent.summary is not None or not self.attributes


@dataclass(frozen=True)
class Wave:
    """Of the agents of a line so many at most have the offer without being well with it; and where more than these failed it no further one is offered it."""

    width: int
    allowed: int


@dataclass(frozen=True)
class Line:
    """A line of the table."""

    number: int
    selector: Selector
    config: Optional[OfferedConfig]  # none where the agents are left alone
    wave: Optional[Wave]
    said: str   # its words
    hash: str   # of the offer
    files: str  # `files_mark` of what an agent then has
    order: str  # the words by which a server is told the offer

    @property
    def is_alone(self) -> bool:
        return self.config is None


@dataclass(frozen=True)
class WantedState:
    """What every agent is to have: the first line that finds it counts."""

    lines: Tuple[Line, ...]

    @property
    def mark(self) -> str:
        """One text for all that the lines mean, by which two states are told apart."""
        told = [(line.selector, line.hash, line.wave) for line in self.lines]
        return hashlib.sha256(repr(told).encode("utf-8", "surrogatepass")).hexdigest()

    def line_of(self, agent: Agent) -> Optional[Line]:
        """The line that counts for the agent; none where none finds it, or that can't be told."""
        for line in self.lines:
            if not line.selector.is_known(agent):
                return None
            if line.selector.finds(agent):
                return line
        return None

    def is_known(self, agent: Agent) -> bool:
        """Whether what is known of the agent tells which line counts for it."""
        for line in self.lines:
            if not line.selector.is_known(agent):
                return False
            if line.selector.finds(agent):
                return True
        return True


def read_wanted(files: Mapping[str, bytes]) -> WantedState:
    """The state that a table and files say, by their paths. NotRight says what isn't right, and in which line."""
    if TABLE not in files:
        raise NotRight(f"there is no {TABLE}")
    lines: List[Line] = []
    for number, words in table_lines(files[TABLE]):
        try:
            line = _line(number, words, files)
            _need_agents(line, lines)
        except WordsRefused as why:
            raise NotRight(f"{TABLE}, line {number}: {why}") from None
        lines.append(line)
    return WantedState(tuple(lines))


def named_paths(table: bytes) -> List[str]:
    """The paths of files that a table names, as far as it is right: what has to be read beside it."""
    paths: Dict[str, None] = {}
    for number, words in table_lines(table):
        try:
            _, rest = _selector(deque(words))
            paths.update(dict.fromkeys(path for path, _, _ in _files(rest)))
        except WordsRefused as why:
            raise NotRight(f"{TABLE}, line {number}: {why}") from None
    return list(paths)


def table_lines(table: bytes) -> List[Tuple[int, List[str]]]:
    """The words of each line that has some, with its number. They are split as a shell splits them; a line that begins with `#` is a note."""
    try:
        text = table.decode()
    except UnicodeDecodeError:
        raise NotRight(f"{TABLE}: it isn't UTF-8") from None
    found: List[Tuple[int, List[str]]] = []
    for number, line in enumerate(text.split("\n"), 1):
        if not line.lstrip().startswith("#"):
            try:
                words = shlex.split(line.rstrip("\r"))
            except ValueError:
                raise NotRight(f"{TABLE}, line {number}: a quotation mark, or what stands behind a backslash, has no end") from None
            found += [(number, words)] if words else []
    return found


def _line(number: int, words: List[str], files: Mapping[str, bytes]) -> Line:
    selector, rest = _selector(deque(words))
    said = " ".join(shlex.quote(word) for word in words).replace("'*'", "*")
    if rest and rest[0] == "alone":
        if len(rest) > 1:
            raise WordsRefused("nothing stands behind `alone`")
        return Line(number, selector, None, None, said, "", "", "")
    offered = [_read(path, name, kind, files) for path, name, kind in _files(rest)]
    wave = _wave(rest)
    if not offered:
        raise WordsRefused("there are no files; an agent that is to be left alone has `alone` in their place")
    if len({file.name for file in offered}) < len(offered):
        raise WordsRefused("two files have one name: an agent has a file under each name")
    config = OfferedConfig(tuple(offered))
    if config.size() > LARGEST_CONFIG:
        raise WordsRefused(f"the offer would have {config.size():,} bytes, and servers take {LARGEST_CONFIG:,} at most")
    mark = files_mark((file.name, file.body) for file in offered)
    return Line(number, selector, config, wave, said, config.hash(), mark, config.words())


def _selector(words: Deque[str]) -> Tuple[Selector, Deque[str]]:
    """The selector at the front, and the words behind it."""
    first = words[0]
    attributes: List[Tuple[str, str]] = []
    while words and words[0].find("=") > 0:
        attributes.append(attribute_of(words.popleft()))
    if attributes:
        return Selector(attributes=tuple(sorted(attributes))), words
    words.popleft()
    digits = compact(first)
    if first != "*" and (len(digits) < LEAST_DIGITS or not re.fullmatch("[0-9a-f]{1,32}", digits)):
        raise WordsRefused(f"`{first}` finds no agent: it isn't `*`, KEY=VALUE or four digits or more of an identifier's beginning")
    return Selector("" if first == "*" else digits), words


def _files(words: Deque[str]) -> List[Tuple[str, str, str]]:
    """The files at the front, `PATH`, `PATH as NAME`, `PATH type TYPE` or both, taken away; the wave is left."""
    found: List[Tuple[str, str, str]] = []
    while words and words[0] not in ("width", "alone"):
        path = words.popleft()
        if path in KEYWORDS:
            raise WordsRefused(f"`{path}` is no file: it is a word of the table")
        if path == TABLE:
            raise WordsRefused(f"`{path}` is the table itself")
        if not PATH.fullmatch(path):
            raise WordsRefused(f"`{path}` is no file: a path has letters, digits, `.`, `_`, `-` and `/` between names that don't begin with `.`")
        told = {"as": "", "type": ""}
        while words and words[0] in told:
            key = words.popleft()
            if not words:
                raise WordsRefused(f"nothing stands behind `{key}`")
            told[key] = words.popleft()
        found.append((path, told["as"], told["type"]))
    return found


def _wave(words: Deque[str]) -> Optional[Wave]:
    if not words:
        return None
    told = list(words)
    if len(told) == 4 and told[::2] == ["width", "allowed"] and all(re.fullmatch("[0-9]{1,7}", number) for number in told[1::2]):
        wave = Wave(int(told[1]), int(told[3]))
        if wave.allowed < wave.width:
            return wave
    raise WordsRefused(WAVE)


def _read(path: str, name: str, kind: str, files: Mapping[str, bytes]) -> OfferedFile:
    if path not in files:
        raise WordsRefused(f"there is no file {path}")
    return OfferedFile.of(name or path.rpartition("/")[2], kind, files[path])


def _need_agents(line: Line, before: List[Line]) -> None:
    """A line to which no agent comes is a mistake."""
    for former in before:
        if former.selector.is_all:
            raise WordsRefused(f"no agent comes to it, since line {former.number} is for all")
        if former.selector == line.selector:
            raise WordsRefused(f"no agent comes to it, since line {former.number} finds the same")
