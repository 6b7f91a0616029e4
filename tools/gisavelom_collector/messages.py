"""The message by which the agent is told its state: one AgentToServer (OpAMP specification; proto3), written by hand.

The agent takes the description, the capabilities, the health and the effective configuration of it, and in the remote
configuration's status the collector's word on a trial.
"""
from __future__ import annotations

from dataclasses import dataclass
from typing import Mapping, Optional, Tuple

# OpAMP specification, AgentCapabilities
CAPABILITIES = {
    "reports-status": 0x1,
    "accepts-config": 0x2,
    "reports-effective-config": 0x4,
    "accepts-packages": 0x8,
    "reports-packages": 0x10,
    "accepts-connection": 0x100,
    "accepts-restart": 0x400,
    "reports-health": 0x800,
    "reports-config": 0x1000,
}
# RemoteConfigStatuses
APPLIED, APPLYING, FAILED = 1, 2, 3
# An error message longer than this isn't passed on by the agent.
ERROR_BYTES = 1000
# The agent's report has room for 4,194,304 bytes; an effective configuration above this is told as an empty one.
EFFECTIVE_BYTES = 3_000_000


@dataclass(frozen=True)
class Word:
    """What is said on a trial: its name, copied to the byte, a status, and why it failed."""

    trial: bytes
    status: int = APPLYING
    error: str = ""


@dataclass(frozen=True)
class Health:
    """Whether the collector is well, since when it runs (nanoseconds since 1970, 0 where it doesn't), what is wrong, and its state."""

    healthy: bool
    status: str
    error: str = ""
    started: int = 0


@dataclass(frozen=True)
class Told:
    """All that status.pb says but the time of the health."""

    identifying: Tuple[Tuple[str, str], ...]
    others: Tuple[Tuple[str, str], ...]
    capabilities: int
    health: Health
    files: Mapping[str, bytes]
    word: Optional[Word] = None

    def message(self, time: int) -> bytes:
        """AgentToServer: 3 agent_description, 4 capabilities, 5 health, 6 effective_config, 7 remote_config_status."""
        out = block(3, _description(self.identifying, self.others)) + number(4, self.capabilities) + block(5, _health(self.health, time))
        out += block(6, _effective(self.files))
        return out + block(7, _remote(self.word)) if self.word else out


# Protocol Buffers encoding guide: a message is a row of fields, each a tag and a value; an absent field is its default.
def varint(value: int) -> bytes:
    out = bytearray()
    while value > 127:
        out.append(value & 127 | 128)
        value >>= 7
    return bytes(out + bytes([value]))


def number(field: int, value: int) -> bytes:
    return varint(field << 3) + varint(value) if value else b""


def fixed64(field: int, value: int) -> bytes:
    return varint(field << 3 | 1) + value.to_bytes(8, "little") if value else b""


def block(field: int, content: bytes) -> bytes:
    """A field of bytes, a text or a message, which is written even where it is empty."""
    return varint(field << 3 | 2) + varint(len(content)) + content


def text(field: int, value: str) -> bytes:
    return block(field, value.encode()) if value else b""


def plain(words: str, limit: int = ERROR_BYTES) -> str:
    """The words as a text of at most so many bytes of UTF-8, without signs that a terminal obeys."""
    kept = "".join(sign if sign.isprintable() or sign == "\n" else " " for sign in words).strip()
    return kept.encode(errors="replace")[:limit].decode(errors="ignore").strip()


def one_line(words: str) -> str:
    """The words as they are told to an operator, who sees them in one line."""
    return plain(" | ".join(each.strip() for each in words.split("\n") if each.strip()))


def _attribute(field: int, key: str, value: str) -> bytes:
    """A KeyValue: 1 key, 2 value, an AnyValue with 1 string_value."""
    return block(field, block(1, key.encode()) + block(2, block(1, value.encode())))


def _description(identifying: Tuple[Tuple[str, str], ...], others: Tuple[Tuple[str, str], ...]) -> bytes:
    """AgentDescription: 1 what identifies the agent, 2 what else is said of it."""
    return b"".join([_attribute(1, *pair) for pair in identifying] + [_attribute(2, *pair) for pair in others])


def _health(health: Health, time: int) -> bytes:
    """ComponentHealth: 1 healthy, 2 and 5 times in nanoseconds since 1970, 3 last_error, 4 status."""
    told = number(1, health.healthy) + fixed64(2, health.started) + text(3, health.error) + text(4, health.status)
    return told + fixed64(5, time)


def _effective(files: Mapping[str, bytes]) -> bytes:
    """EffectiveConfig: 1 config_map, an AgentConfigMap with 1, a map from names to AgentConfigFile (1 body)."""
    if sum(map(len, files.values())) > EFFECTIVE_BYTES:
        files = {}
    return block(1, b"".join(block(1, text(1, name) + block(2, block(1, files[name]))) for name in sorted(files)))


def _remote(word: Word) -> bytes:
    """RemoteConfigStatus: 1 last_remote_config_hash, 2 status, 3 error_message."""
    return block(1, word.trial) + number(2, word.status) + text(3, word.error)
