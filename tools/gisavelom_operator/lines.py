"""A server's port for operators: lines over TCP, orders and answers (docs/PROTOCOL.md, "Operator lines")."""
from __future__ import annotations

import re
import socket
from collections import deque
from contextlib import contextmanager
from typing import Deque, Dict, Iterable, Iterator, List, NamedTuple, Optional, Tuple

from .problems import NoServer, NoSuchAgent, NoSuchRollout, NotUnderstood, Problem, Refused, WordsRefused, reason

DEFAULT_SERVER = "127.0.0.1:4322"
LONGEST_ORDER = 4_194_304  # bytes of a line; a server closes the connection on a longer one

# Orders that are sent ahead of their answers: so many at most, and so few that their answers stay far below the 64 MiB
# that a server lets wait for one peer.
ORDERS_AHEAD = 128
FIRST_AHEAD = 8
BYTES_AHEAD = 8_388_608
BYTES_SENT_AHEAD = 1_048_576

REFUSAL = "refused: "
UNKNOWN_AGENT = "unknown agent"
NO_ROLLOUT = "no rollout"
REFUSED_WORDS = "words"


class Lost(NoServer):
    """The connection ended before the answer was whole."""


class Address(NamedTuple):
    """Where a server listens for operators."""

    host: str
    port: int

    @classmethod
    def read(cls, word: str) -> Address:
        """HOST:PORT; an address of IPv6 stands in brackets."""
        host, between, port = word.rpartition(":")
        if host.startswith("[") and host.endswith("]"):
            host = host[1:-1]
        elif ":" in host:
            raise WordsRefused(f"{word} isn't HOST:PORT; an address of IPv6 stands in brackets, as [::1]:4322")
        if not between or not host or not re.fullmatch("[0-9]{1,5}", port) or not 0 < int(port) < 65536:
            raise WordsRefused(f"{word} isn't HOST:PORT, as {DEFAULT_SERVER}")
        return cls(host, int(port))

    def __str__(self) -> str:
        return f"[{self.host}]:{self.port}" if ":" in self.host else f"{self.host}:{self.port}"


class Listed(NamedTuple):
    """A line of `list`: the number is that of the agent's last report that was taken."""

    uid: str
    number: int
    presence: str  # here, left
    health: str    # healthy, unhealthy, unknown

    @classmethod
    def read(cls, line: str) -> Listed:
        words = line.split(" ")
        if len(words) == 4 and words[1].isdigit() and words[2] in ("here", "left"):
            return cls(words[0], int(words[1]), words[2], words[3])
        raise NotUnderstood(f"a server's list has a line that is none: {line[:60]}")


class Aged(NamedTuple):
    """A line of `ages`: how long ago the agent's last report was taken, and how it came."""

    uid: str
    seconds: int
    way: str  # open, closed: over a WebSocket that is still known, or isn't; http

    @classmethod
    def read(cls, line: str) -> Aged:
        words = line.split(" ")
        if len(words) == 3 and DECIMAL.fullmatch(words[1]) and words[2] in ("open", "closed", "http"):
            return cls(words[0], int(words[1]), words[2])
        raise NotUnderstood(f"a server's ages have a line that is none: {line[:60]}")


DECIMAL = re.compile("[0-9]+")
COUNTED = ("agents", "here", "healthy", "unhealthy", "connections", "reports", "orders", "rollouts")
Counts = Dict[str, int]  # by the words of COUNTED


def read_counts(lines: Iterable[str]) -> Counts:
    """The lines of `count`. One of a name that isn't known here is passed over; each known one has to be there."""
    counts: Counts = {}
    for line in lines:
        name, _, number = line.partition(" ")
        if not DECIMAL.fullmatch(number):
            raise NotUnderstood(f"a server's counts have a line that is none: {line[:60]}")
        counts[name] = int(number)
    missing = [name for name in COUNTED if name not in counts]
    if missing:
        raise NotUnderstood(f"a server's counts lack {', '.join(missing)}")
    return {name: counts[name] for name in COUNTED}


FATES = ("applied", "failed", "offered", "waiting")
ROLLOUT_ID = re.compile(r"[A-Za-z0-9_-]{1,64}")
ROLLOUT_LINE = re.compile(r"([A-Za-z0-9_-]{1,64}) waiting ([0-9]+) offered ([0-9]+) applied ([0-9]+) failed ([0-9]+)( halted)?")
MOST_ROLLOUTS = 16  # that a server holds


class Rollout(NamedTuple):
    """A line of `rollouts`: so many agents wait for the offer, have it and said nothing of it yet, applied it, failed."""

    id: str
    waiting: int
    offered: int
    applied: int
    failed: int
    is_halted: bool

    @classmethod
    def read(cls, line: str) -> Rollout:
        found = ROLLOUT_LINE.fullmatch(line)
        if not found:
            raise NotUnderstood(f"a server's list of rollouts has a line that is none: {line[:60]}")
        return cls(found[1], int(found[2]), int(found[3]), int(found[4]), int(found[5]), bool(found[6]))

    @property
    def members(self) -> int:
        """The agents that joined."""
        return self.waiting + self.offered + self.applied + self.failed

    @property
    def state(self) -> str:
        """`halted`; `over` where agents joined and it is known of each what became of the offer; else `goes on`."""
        if self.is_halted:
            return "halted"
        return "over" if self.members and not self.waiting and not self.offered else "goes on"


class Member(NamedTuple):
    """A line of `members`: an agent that joined a rollout, and what became of the offer there, a word of FATES."""

    uid: str
    fate: str

    @classmethod
    def read(cls, line: str) -> Member:
        uid, _, fate = line.partition(" ")
        if fate not in FATES:
            raise NotUnderstood(f"a server's list of a rollout's agents has a line that is none: {line[:60]}")
        return cls(uid, fate)


class WithoutRollouts(Refused):
    """The server doesn't know the lines of rollouts."""


def word(value: str, what: str) -> str:
    """A word of an order: a line's words stand with one blank between each two."""
    if not value or any(sign in value for sign in " \n"):
        raise WordsRefused(f"{what} {value!r} can't be said to a server: it is empty, or has a blank or a line's end")
    try:
        value.encode()
    except UnicodeEncodeError:
        raise WordsRefused(f"{what} {value!r} isn't UTF-8") from None
    return value


ENDPOINT = re.compile(r"(?:ws|http)://[A-Za-z0-9.-]{1,253}(?::([0-9]{1,5}))?(?:/[\x21-\x7e]*)?")


def endpoint(url: str) -> str:
    """An endpoint that agents of this project try (docs/PROTOCOL.md, "Endpoints")."""
    found = ENDPOINT.fullmatch(url)
    if not found or found[1] and not 0 < int(found[1]) < 65536:
        raise WordsRefused(f"{url!r} is no endpoint, as ws://10.0.0.1:4320/v1/opamp: agents of this project pass it over; --as-is says it all the same")
    return url


class Connection:
    """One connection to a server, on which orders are answered in their order."""

    def __init__(self, address: Address, seconds: float) -> None:
        self.address = address
        try:
            self._socket = socket.create_connection((address.host, address.port), timeout=seconds)
            self._socket.setsockopt(socket.IPPROTO_TCP, socket.TCP_NODELAY, 1)
        except OSError as why:
            raise NoServer(f"no server at {address}: {reason(why)}") from None
        except UnicodeError:
            raise NoServer(f"no server at {address}: that is no host's name") from None
        self._came = self._socket.makefile("rb", buffering=262_144)

    def close(self) -> None:
        self._came.close()
        self._socket.close()

    def send(self, orders: Iterable[str]) -> None:
        """Sends orders, one behind the other."""
        try:
            self._socket.sendall("".join(order + "\n" for order in orders).encode())
        except OSError as why:
            raise self._lost(why) from None

    def line(self) -> str:
        """The next line that came, without its end."""
        try:
            line = self._came.readline()
        except OSError as why:
            raise self._lost(why) from None
        if not line.endswith(b"\n"):
            raise Lost(f"the server at {self.address} ended the connection before its answer was whole")
        return line[:-1].decode("utf-8", "replace")

    def done(self) -> None:
        """The answer to an order that does something."""
        line = self.line()
        if line != "ok":
            raise self._refusal(line)

    def lines(self, bare: Optional[str] = None) -> List[str]:
        """The answer to an order that tells something: its lines before `end`, of which one may be this bare word."""
        lines: List[str] = []
        while True:
            line = self.line()
            if line == "end":
                return lines
            if not lines and line.startswith(REFUSAL):
                raise self._refusal(line)
            if line != bare and " " not in line or line.startswith("HTTP/1."):
                raise self._refusal(line)
            lines.append(line)

    def _refusal(self, line: str) -> Exception:
        if line == REFUSAL + UNKNOWN_AGENT:
            return NoSuchAgent(f"the server at {self.address} holds no such agent")
        if line == REFUSAL + NO_ROLLOUT:
            return NoSuchRollout(f"the server at {self.address} holds no such rollout")
        if line.startswith(REFUSAL):
            return Refused(f"the server at {self.address} refused: {line[len(REFUSAL):]}")
        return NotUnderstood(f"what listens at {self.address} answers {line[:60]!r}: that is no port for operators")

    def _lost(self, why: OSError) -> NoServer:
        said = reason(why)
        if said == "no answer in time":
            return NoServer(f"the server at {self.address} doesn't answer in time")
        return Lost(f"the connection to the server at {self.address} is lost: {said}")


def _batches(orders: Iterable[str]) -> Iterator[List[str]]:
    """The orders, so many together as may be sent ahead of their answers."""
    batch: List[str] = []
    size = 0
    for order in orders:
        if batch and (len(batch) == ORDERS_AHEAD or size + len(order) > BYTES_SENT_AHEAD):
            yield batch
            batch, size = [], 0
        batch.append(order)
        size += len(order)
    if batch:
        yield batch


class Session:
    """What is said to one server. It connects when something is to be said, and again behind a loss."""

    def __init__(self, address: Address, seconds: float) -> None:
        self.address = address
        self._seconds = seconds
        self._connection: Optional[Connection] = None

    def another(self) -> Session:
        """A session with the same server on a connection of its own."""
        return Session(self.address, self._seconds)

    def close(self) -> None:
        """Ends the connection, if there is one."""
        if self._connection is not None:
            self._connection.close()
            self._connection = None

    def list(self) -> List[Listed]:
        """The agents that the server holds, ascending by identifier."""
        return [Listed.read(line) for line in self._told("list")]

    def show(self, uid: str) -> List[str]:
        """The text of what the server knows of the agent."""
        return self._told(f"show {uid}")

    def waits(self, uid: str) -> List[str]:
        """What waits for the agent: offers with their hashes, and `restart`."""
        return self._told(f"waits {uid}", "restart")

    def rollouts(self) -> List[Rollout]:
        """The rollouts that the server holds, in the order in which they began. WithoutRollouts where it knows no such line."""
        told = self._told_if_known("rollouts")
        if told is None:
            raise WithoutRollouts(f"the server at {self.address} is of a former version, which has no rollouts by lines")
        return [Rollout.read(line) for line in told]

    def ages(self) -> Optional[List[Aged]]:
        """How long ago each agent's last report was taken, ascending by identifier, of those that reported since the server's run began; None where it
        knows no such line."""
        told = self._told_if_known("ages")
        return None if told is None else [Aged.read(line) for line in told]

    def count(self) -> Optional[Counts]:
        """How many there are of each; None where the server knows no such line."""
        told = self._told_if_known("count")
        return None if told is None else read_counts(told)

    def members(self, rollout: str) -> List[Member]:
        """The agents that joined a rollout, in the order of joining."""
        return [Member.read(line) for line in self._told(f"members {rollout}")]

    def order(self, order: str) -> None:
        """Has the server do something. It isn't said twice: where the connection is lost the server may have done it."""
        size = len(order.encode()) + 1
        if size > LONGEST_ORDER:
            raise Refused(f"too large: the order would have {size:,} bytes, and a server takes {LONGEST_ORDER:,} at most")
        with self._connected() as connection:
            connection.send([order])
            connection.done()

    def show_all(self, uids: Iterable[str]) -> Iterator[Tuple[str, Optional[List[str]]]]:
        """The texts of many agents, asked ahead on one connection; None of one that isn't held any more or can't be shown.

        A server ends a connection on which more waits than it allows, as the text of a huge agent does: it is asked for
        alone then, and passed over where that is lost too.
        """
        return self._each_told("show", uids)

    def waits_all(self, uids: Iterable[str]) -> Iterator[Tuple[str, Optional[List[str]]]]:
        """What waits for many agents, asked ahead on one connection; None of one that isn't held any more."""
        return self._each_told("waits", uids, "restart")

    def order_all(self, orders: Iterable[str]) -> Iterator[Optional[Problem]]:
        """Has the server do many things, a batch of them sent ahead of its answers; gives of each what went wrong with it. None is said twice:
        a connection that is lost ends it by NoServer, and what was sent and isn't answered may have been done."""
        with self._connected() as connection:
            for batch in _batches(orders):
                connection.send(batch)
                for _ in batch:
                    try:
                        connection.done()
                        yield None
                    except (NoSuchAgent, Refused) as why:
                        yield why

    def _each_told(self, verb: str, uids: Iterable[str], bare: Optional[str] = None) -> Iterator[Tuple[str, Optional[List[str]]]]:
        waiting = deque(uids)
        while waiting:
            try:
                yield from self._row(verb, waiting, bare)
            except Lost:
                uid = waiting.popleft()
                yield uid, self._alone(f"{verb} {uid}", bare)

    def _row(self, verb: str, waiting: Deque[str], bare: Optional[str]) -> Iterator[Tuple[str, Optional[List[str]]]]:
        """Asks for those that wait, and takes each away once it is answered."""
        sent, ahead, largest = 0, FIRST_AHEAD, 1
        with self._connected() as connection:
            while waiting:
                if sent <= ahead // 2:
                    more = [f"{verb} {waiting[at]}" for at in range(sent, min(ahead, len(waiting)))]
                    connection.send(more)
                    sent += len(more)
                try:
                    lines: Optional[List[str]] = connection.lines(bare)
                except (NoSuchAgent, Refused):
                    lines = None
                largest = max(largest, sum(map(len, lines or [])))
                ahead = max(1, min(2 * ahead, ORDERS_AHEAD, BYTES_AHEAD // largest))
                sent -= 1
                yield waiting.popleft(), lines

    def _alone(self, question: str, bare: Optional[str]) -> Optional[List[str]]:
        try:
            return self._told(question, bare)
        except (Lost, NoSuchAgent, Refused):
            return None

    def _told_if_known(self, question: str) -> Optional[List[str]]:
        """The answer to a question of a word; None where the server, of a former version, knows no such line."""
        try:
            return self._told(question)
        except Refused as why:
            if str(why).endswith(REFUSAL + REFUSED_WORDS):
                return None
            raise

    def _told(self, order: str, bare: Optional[str] = None) -> List[str]:
        """The answer to an order that changes nothing; it is asked again where a connection that was idle had ended."""
        was_idle = self._connection is not None
        try:
            return self._told_once(order, bare)
        except Lost:
            if not was_idle:
                raise
            return self._told_once(order, bare)

    def _told_once(self, order: str, bare: Optional[str]) -> List[str]:
        with self._connected() as connection:
            connection.send([order])
            return connection.lines(bare)

    @contextmanager
    def _connected(self) -> Iterator[Connection]:
        """The connection. It is dropped where an answer didn't come whole, so that none is taken for another's."""
        if self._connection is None:
            self._connection = Connection(self.address, self._seconds)
        try:
            yield self._connection
        except (Refused, NoSuchAgent, NoSuchRollout):
            raise
        except BaseException:
            self.close()
            raise
