"""Keys below a prefix in etcd, over the JSON gateway of its members (etcd documentation, "gRPC gateway": /v3/kv/range, /v3/kv/txn, /v3/watch).

Reads are linearizable: a member that can't reach the others gives none, and the next one is asked. What changes the keys is one
transaction that is done only where nothing below the prefix has changed since it was read.
"""
from __future__ import annotations

import base64
import http.client
import json
import ssl
from contextlib import closing
from dataclasses import dataclass
from typing import Any, Dict, Iterator, List, Mapping, Sequence
from urllib.parse import urlsplit

from .problems import NoServer, NotHere, NotUnderstood, Refused, WordsRefused, reason

WATCH_SILENCE = 60.0  # seconds without a word behind which a watch is begun anew
MOST_CHANGES = 100    # keys that one transaction changes; etcd takes 128 of them unless it is told otherwise

Message = Mapping[str, Any]


class Changed(Refused):
    """What was read isn't there any more as it was, so nothing was written."""


@dataclass(frozen=True)
class Trust:
    """Files by which a member of https is known, and by which this program is known to it; empty where none is needed."""

    authority: str = ""
    certificate: str = ""
    key: str = ""

    def context(self) -> ssl.SSLContext:
        try:
            context = ssl.create_default_context(cafile=self.authority or None)
            if self.certificate:
                context.load_cert_chain(self.certificate, self.key or None)
            return context
        except OSError as why:
            raise NotHere(f"the certificates for etcd can't be taken: {reason(why)}") from None


@dataclass(frozen=True)
class Member:
    """Where a member of etcd is reached."""

    host: str
    port: int
    is_secure: bool

    @classmethod
    def read(cls, url: str) -> Member:
        """http://HOST:PORT or https://HOST:PORT."""
        parts = urlsplit(url)
        try:
            port = parts.port or 2379
        except ValueError:
            port = 0
        if parts.scheme not in ("http", "https") or not parts.hostname or not port or parts.path.strip("/") or parts.query or parts.username:
            raise WordsRefused(f"{url} isn't http://HOST:PORT or https://HOST:PORT, as http://127.0.0.1:2379")
        return cls(parts.hostname, port, parts.scheme == "https")

    def __str__(self) -> str:
        return f"etcd at {self.host}:{self.port}"


@dataclass(frozen=True)
class Key:
    """A key's value, empty where it wasn't asked for, and the revision that wrote it."""

    value: bytes
    revision: int


@dataclass(frozen=True)
class Keys:
    """All keys below the prefix, without it, as they were at one revision."""

    revision: int
    keys: Mapping[str, Key]

    def revisions(self) -> Dict[str, int]:
        """Of each key the revision that wrote it: two readings are of one state where these are the same."""
        return {path: key.revision for path, key in self.keys.items()}


class Etcd:
    """The keys below a prefix. Its members are asked in turn, from the one on that answered last."""

    def __init__(self, members: Sequence[Member], prefix: str, seconds: float, trust: Trust = Trust()) -> None:
        self._members = list(members)
        self._prefix = prefix.encode()
        self._seconds = seconds
        self._trust = trust
        self._context = trust.context() if any(member.is_secure for member in members) else None

    def __str__(self) -> str:
        return f"{self._prefix.decode()} in etcd"

    def another(self) -> Etcd:
        """The same keys, for another thread."""
        return Etcd(self._members, self._prefix.decode(), self._seconds, self._trust)

    def read(self, values: bool = True) -> Keys:
        """All keys; without their values where these aren't asked for."""
        told = self._asked("/v3/kv/range", {**self._range(), "keys_only": not values})
        keys: Dict[str, Key] = {}
        for kv in told.get("kvs", []):
            keys[_bytes(kv, "key")[len(self._prefix):].decode("utf-8", "replace")] = Key(_bytes(kv, "value"), int(kv["mod_revision"]))
        return Keys(int(told["header"]["revision"]), keys)

    def swap(self, read: Keys, puts: Mapping[str, bytes], deletes: Sequence[str], guard: str) -> None:
        """Writes and deletes keys where nothing has changed since it was read; Changed where something has.

        A key that was deleted since leaves no trace below the prefix. So each change writes the key `guard` anew, where it is there, and is done
        only where that is as it was.
        """
        if len(puts) + len(deletes) > MOST_CHANGES:
            raise Refused(f"{len(puts) + len(deletes)} keys would change, and one change has {MOST_CHANGES} at most")
        known = read.keys[guard].revision if guard in read.keys else 0
        compares = [
            {**self._range(), "target": "MOD", "result": "LESS", "mod_revision": str(read.revision + 1)},
            {"key": self._key(guard), "target": "MOD", "result": "EQUAL", "mod_revision": str(known)},
        ]
        changes: List[Message] = [{"request_put": {"key": self._key(path), "value": _text(value)}} for path, value in puts.items()]
        changes += [{"request_delete_range": {"key": self._key(path)}} for path in deletes]
        if guard not in puts and guard in read.keys:
            changes.append({"request_put": {"key": self._key(guard), "value": _text(read.keys[guard].value)}})
        told = self._asked("/v3/kv/txn", {"compare": compares, "success": changes}, once=True)
        if not told.get("succeeded"):
            raise Changed(f"what stands below {self} was changed by another meanwhile: nothing was written")

    def changes(self) -> Iterator[None]:
        """Gives once from when on the keys are watched, and then each time that some changed. It ends by a Problem, and begins at the next member then."""
        try:
            connection = self._connected(WATCH_SILENCE)
        except NoServer:
            self._turn()
            raise
        try:
            response = self._answer(connection, "/v3/watch", {"create_request": self._range()})
            while True:
                line = response.readline()
                told = json.loads(line) if line else {}
                if "result" not in told or told["result"].get("canceled"):
                    raise NoServer(f"the watch of {self} has ended")
                yield None
        except (OSError, ValueError, http.client.HTTPException) as why:
            raise NoServer(f"the watch of {self} is lost: {why}") from None
        finally:
            connection.close()
            self._turn()

    def _range(self) -> Message:
        return {"key": _text(self._prefix), "range_end": _text(_behind(self._prefix))}

    def _key(self, path: str) -> str:
        return _text(self._prefix + path.encode())

    def _asked(self, path: str, asked: Message, once: bool = False) -> Message:
        """A member's answer. What changes keys is sent once at most: where its answer is lost it may have been done."""
        lost: List[str] = []
        for _ in range(len(self._members)):
            sent = False
            try:
                with closing(self._connected(self._seconds)) as connection:
                    sent = True
                    return _message(self._answer(connection, path, asked).read())
            except (NoServer, OSError, http.client.HTTPException) as why:
                if once and sent:
                    raise NoServer(f"{why}; the change may have been made all the same") from None
                lost.append(str(why))
                self._turn()
        raise NoServer("; ".join(lost))

    def _turn(self) -> None:
        """Has the next member be asked."""
        self._members.append(self._members.pop(0))

    def _connected(self, seconds: float) -> http.client.HTTPConnection:
        """A connection to the first member."""
        member = self._members[0]
        if member.is_secure:
            connection: http.client.HTTPConnection = http.client.HTTPSConnection(member.host, member.port, timeout=seconds, context=self._context)
        else:
            connection = http.client.HTTPConnection(member.host, member.port, timeout=seconds)
        try:
            connection.connect()
            return connection
        except OSError as why:
            connection.close()
            raise NoServer(f"no {member}: {reason(why)}") from None

    def _answer(self, connection: http.client.HTTPConnection, path: str, asked: Message) -> http.client.HTTPResponse:
        """The answer of the first member, of status 200."""
        try:
            connection.request("POST", path, json.dumps(asked), {"Content-Type": "application/json"})
            response = connection.getresponse()
        except OSError as why:
            raise NoServer(f"{self._members[0]} doesn't answer: {reason(why)}") from None
        if response.status != 200:
            raise _refusal(self._members[0], response.status, response.read(4096))
        return response


def _refusal(member: Member, status: int, body: bytes) -> Exception:
    try:
        said = str(json.loads(body).get("error", ""))
    except (ValueError, AttributeError):
        said = ""
    if not said:
        return NotUnderstood(f"what answers as {member} says {status} to a question for etcd")
    return (NoServer if status >= 500 else Refused)(f"{member} says: {said}")


def _message(body: bytes) -> Message:
    try:
        told = json.loads(body)
    except ValueError:
        told = None
    if not isinstance(told, dict) or "header" not in told:
        raise NotUnderstood("what answers as etcd says no answer of etcd's")
    return told


def _text(value: bytes) -> str:
    return base64.b64encode(value).decode()


def _bytes(told: Message, name: str) -> bytes:
    return base64.b64decode(told.get(name, ""))


def _behind(prefix: bytes) -> bytes:
    """The first key behind all that begin with the prefix."""
    return prefix[:-1] + bytes([prefix[-1] + 1])
