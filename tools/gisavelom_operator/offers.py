"""Offers: the orders that make them, and the hashes under which an agent tells what became of them.

An offer's hash is the SHA-256 of the canonical bytes of its message with the hash empty (docs/PROTOCOL.md, "Offers and
orders"). A server makes it itself and doesn't tell it; it is made here too, so that an agent's status can be told apart from
that of an offer made before.
"""
from __future__ import annotations

import hashlib
import os
from dataclasses import dataclass
from typing import List, Sequence, Tuple

from .agents import ConfigStatus, PackagesStatus
from .lines import word
from .problems import NotHere, reason

# By a file's ending. The table of the machine isn't asked: the type is a part of the offer's hash.
CONTENT_TYPES = {
    ".yaml": "text/yaml",
    ".yml": "text/yaml",
    ".json": "application/json",
    ".toml": "application/toml",
    ".xml": "application/xml",
    ".txt": "text/plain",
    ".conf": "text/plain",
    ".ini": "text/plain",
}


# An offer's bytes at most (docs/PROTOCOL.md, "Offers and orders").
LARGEST_CONFIG = 1_048_576


def varint(value: int) -> bytes:
    """Protocol Buffers encoding guide, "Base 128 Varints"."""
    out = bytearray()
    while value > 127:
        out.append(value & 127 | 128)
        value >>= 7
    return bytes(out + bytes([value]))


def block(number: int, content: bytes) -> bytes:
    """A field of bytes, a text or a message, which is written even where it is empty."""
    return varint(number << 3 | 2) + varint(len(content)) + content


def scalar(number: int, content: bytes) -> bytes:
    """A field of bytes or a text, left out where it is empty."""
    return block(number, content) if content else b""


@dataclass(frozen=True)
class OfferedFile:
    """A file of a configuration. Its name may be empty, which a line spells `-`."""

    name: str
    content_type: str
    body: bytes

    @classmethod
    def of(cls, name: str, content_type: str, body: bytes) -> OfferedFile:
        """A file whose type is that of its name's ending where none is given; `-` is no type and the empty name. Both can be said in a line."""
        kind = content_type or CONTENT_TYPES.get(os.path.splitext(name)[1].lower(), "-")
        return cls("" if name == "-" else word(name, "the name"), "" if kind == "-" else word(kind, "the type"), body)

    @classmethod
    def read(cls, path: str, name: str = "", content_type: str = "") -> OfferedFile:
        """The file at the path, under its own name unless another is given."""
        return cls.of(name or os.path.basename(path), content_type, contents(path))

    def words(self) -> str:
        """The words by which a line offers it."""
        return f"{self.name or '-'} {self.content_type or '-'} {self.body.hex() or '-'}"

    def entry(self) -> bytes:
        """An entry of AgentConfigMap: 1 the name, 2 an AgentConfigFile (1 body, 2 content_type)."""
        file = scalar(1, self.body) + scalar(2, self.content_type.encode())
        return scalar(1, self.name.encode()) + block(2, file)

    def told(self) -> str:
        """The file in words for people."""
        return f"{self.name or 'the file without a name'} ({self.content_type or 'no type'}, {len(self.body):,} bytes)"


@dataclass(frozen=True)
class OfferedConfig:
    """A configuration: files under names. Of a name that comes twice the last counts."""

    files: Tuple[OfferedFile, ...]

    def words(self) -> str:
        """The words by which a line offers it."""
        return " ".join(file.words() for file in self.files)

    def message(self) -> bytes:
        """AgentRemoteConfig with no hash: 1 config, an AgentConfigMap with 1, a map in ascending order of its keys."""
        last = {file.name.encode(): file for file in self.files}
        return block(1, b"".join(block(1, last[name].entry()) for name in sorted(last)))

    def hash(self) -> str:
        """The hash under which an agent tells what became of it."""
        return hashlib.sha256(self.message()).hexdigest()

    def size(self) -> int:
        """The bytes that count against the limit of an offer: those of the message with its hash (field 2, of 32 bytes)."""
        return len(self.message()) + len(block(2, bytes(32)))

    def told(self) -> str:
        """The configuration in words for people."""
        return f"{', '.join(file.told() for file in self.files)}, hash {self.hash()}"


@dataclass(frozen=True)
class OfferedPackage:
    """A package of one file at a URL, which has content of this SHA-256."""

    name: str
    version: str
    url: str
    content_hash: bytes

    @classmethod
    def read(cls, name: str, version: str, url: str, path: str) -> OfferedPackage:
        """The package whose file is, here, at the path."""
        return cls(name, version, url, hashlib.sha256(contents(path)).digest())

    def message(self) -> bytes:
        """PackageAvailable: 1 type is TopLevel, the default; 2 version, 3 file (1 download_url, 2 content_hash), 4 hash."""
        front = scalar(2, self.version.encode()) + block(3, scalar(1, self.url.encode()) + scalar(2, self.content_hash))
        return front + block(4, hashlib.sha256(front).digest())


@dataclass(frozen=True)
class OfferedSettings:
    """Settings of the connection: an endpoint, an interval and headers; what is empty or 0 isn't set."""

    url: str
    seconds: int
    headers: Tuple[Tuple[str, str], ...]

    def words(self) -> str:
        """The words by which a line offers them."""
        named = [f"{word(name, 'the header')}:{value.encode().hex() or '-'}" for name, value in self.headers]
        return " ".join([word(self.url or "-", "the URL"), str(self.seconds), *named])


def packages_words(packages: Sequence[OfferedPackage]) -> str:
    """The words by which a line offers these packages."""
    words: List[str] = []
    for package in packages:
        words += [word(package.name, "the name"), word(package.version, "the version"), word(package.url, "the URL")]
        words.append(package.content_hash.hex())
    return " ".join(words)


def packages_hash(packages: Sequence[OfferedPackage]) -> str:
    """Of PackagesAvailable: 1 packages, a map in ascending order of its keys. Of a package named twice the last counts."""
    last = {package.name.encode(): package for package in packages}
    entries = (scalar(1, name) + block(2, last[name].message()) for name in sorted(last))
    return hashlib.sha256(b"".join(block(1, entry) for entry in entries)).hexdigest()


def config_outcome(status: ConfigStatus, offered: str) -> str:
    """What became of the configuration offered under this hash: waiting, applying, applied or failed."""
    return status.state if status.hash == offered and status.state in ("applying", "applied", "failed") else "waiting"


def packages_outcome(status: PackagesStatus, offered: str) -> str:
    """What became of the packages offered under this hash: waiting, installing, installed or failed."""
    if status.hash != offered:
        return "waiting"
    states = {package.state for package in status.packages}
    if status.error or "failed" in states:
        return "failed"
    return "installed" if states <= {"installed"} else "installing"


def contents(path: str) -> bytes:
    """The file's bytes."""
    try:
        with open(path, "rb") as file:
            return file.read()
    except OSError as why:
        raise NotHere(f"{path} can't be read: {reason(why)}") from None
