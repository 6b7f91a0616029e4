"""What an agent told of itself, taken from the text that a server shows of it (OpAMP specification, "AgentToServer Message")."""
from __future__ import annotations

import hashlib
from dataclasses import dataclass, field, replace
from typing import Dict, FrozenSet, Iterable, List, Optional, Sequence, Tuple

from .text import Tree, Value, of_fields, tree_of

# AgentCapabilities, by their bits
ACCEPTS_REMOTE_CONFIG = 0x2
REPORTS_EFFECTIVE_CONFIG = 0x4
ACCEPTS_PACKAGES = 0x8
ACCEPTS_CONNECTION_SETTINGS = 0x100
ACCEPTS_RESTART = 0x400
REPORTS_REMOTE_CONFIG = 0x1000
CAPABILITIES = {
    0x1: "ReportsStatus",
    ACCEPTS_REMOTE_CONFIG: "AcceptsRemoteConfig",
    REPORTS_EFFECTIVE_CONFIG: "ReportsEffectiveConfig",
    ACCEPTS_PACKAGES: "AcceptsPackages",
    0x10: "ReportsPackageStatuses",
    ACCEPTS_CONNECTION_SETTINGS: "AcceptsOpAMPConnectionSettings",
    ACCEPTS_RESTART: "AcceptsRestartCommand",
    0x800: "ReportsHealth",
    REPORTS_REMOTE_CONFIG: "ReportsRemoteConfig",
    0x2000: "ReportsHeartbeat",
    0x4000: "ReportsAvailableComponents",
}
REMOTE_CONFIG_STATUSES = ("unset", "applied", "applying", "failed")
PACKAGE_STATUSES = ("installed", "pending", "installing", "failed", "downloading")

# The fields of a report that a line of the fleet's table needs.
SUMMARY_FIELDS = ("agent_description", "capabilities", "remote_config_status", "package_statuses")


@dataclass(frozen=True)
class ConfigStatus:
    """What became of the configuration that the agent was offered last."""

    state: str = "none"  # none where the agent doesn't tell it, else a word of REMOTE_CONFIG_STATUSES
    hash: str = ""       # of the offer that it speaks of, in hexadecimal
    error: str = ""


@dataclass(frozen=True)
class PackageStatus:
    """What the agent says of one package."""

    name: str
    state: str
    version: str
    offered_version: str
    error: str


@dataclass(frozen=True)
class PackagesStatus:
    """What the agent says of all its packages."""

    packages: Tuple[PackageStatus, ...] = ()
    hash: str = ""  # of the offer that it speaks of, in hexadecimal
    error: str = ""

    def words(self) -> str:
        """How many packages are how, as `1 failed, 2 installed`; `-` where there is none."""
        counts = {state: 0 for state in ("failed", *PACKAGE_STATUSES)}
        for package in self.packages:
            counts[package.state] = counts.get(package.state, 0) + 1
        told = [f"{count} {state}" for state, count in counts.items() if count]
        return ", ".join(told) or ("failed" if self.error else "-")


@dataclass(frozen=True)
class Health:
    """The health of the agent or of a part of it; times are nanoseconds since 1970, 0 where they aren't told."""

    healthy: bool
    status: str
    error: str
    started: int
    told: int
    parts: Dict[str, Health]


@dataclass(frozen=True)
class File:
    """A file of the effective configuration."""

    name: str
    content_type: str
    body: bytes


@dataclass(frozen=True)
class Summary:
    """What a line of the fleet's table needs."""

    identifying: Dict[str, str] = field(default_factory=dict)
    others: Dict[str, str] = field(default_factory=dict)
    capabilities: int = 0
    config: ConfigStatus = ConfigStatus()
    packages: PackagesStatus = PackagesStatus()
    no_texts: FrozenSet[Tuple[str, str]] = frozenset()  # the attributes whose values are numbers and the like, and aren't texts
    effective: str = ""  # `files_mark` of the effective configuration, where the agent tells one and no ConfigStatus

    def attribute(self, key: str) -> str:
        """The attribute's value as a text, empty where there is none."""
        return self.identifying.get(key, self.others.get(key, ""))

    def has_text(self, key: str, text: str) -> bool:
        """Whether an attribute, identifying or not, has this key and this text as its value, as a server finds agents."""
        is_there = text in (self.identifying.get(key), self.others.get(key))
        return is_there and (key, text) not in self.no_texts

    def has(self, capability: int) -> bool:
        """Whether the agent's capabilities have this bit."""
        return bool(self.capabilities & capability)


@dataclass(frozen=True)
class Details:
    """All that a server knows of an agent."""

    summary: Summary
    health: Optional[Health]
    files: Tuple[File, ...]
    custom_capabilities: Tuple[str, ...]
    components_hash: str


def summary_of(lines: Iterable[str]) -> Summary:
    """The summary in a server's text of the agent. Its other lines, which may be many, aren't read: those of the effective configuration
    are where nothing else tells which configuration the agent has."""
    kept = list(lines)
    summary = _summary(tree_of(of_fields(kept, SUMMARY_FIELDS)))
    if summary.config.state != "none":
        return summary
    told = tree_of(of_fields(kept, ("effective_config",)))
    return replace(summary, effective=files_mark((file.name, file.body) for file in _files(told))) if told else summary


def details_of(lines: Iterable[str]) -> Details:
    """All that is in a server's text of the agent."""
    tree = tree_of(lines)
    health = tree.get("health")
    return Details(
        summary=_summary(tree),
        health=_health(health) if isinstance(health, dict) else None,
        files=_files(tree),
        custom_capabilities=tuple(str(name) for name in _at(tree, "custom_capabilities", "capabilities").values()),
        components_hash=_at(tree, "available_components").get("hash", b"").hex(),
    )


def files_mark(files: Iterable[Tuple[str, bytes]]) -> str:
    """One text for files by their names and contents, whatever their order and types."""
    names = {name.encode(): hashlib.sha256(body).digest() for name, body in files}
    return hashlib.sha256(b"".join(hashlib.sha256(name).digest() + names[name] for name in sorted(names))).hexdigest()


def capability_names(capabilities: int) -> List[str]:
    """The names of the bits that are set; a bit without a name is told in hexadecimal."""
    bits = [1 << at for at in range(capabilities.bit_length()) if capabilities >> at & 1]
    return [CAPABILITIES.get(bit, hex(bit)) for bit in bits]


def words_of(value: Value) -> str:
    """An attribute's value (AnyValue) as a text for people."""
    if not isinstance(value, dict) or not value:
        return ""
    kind, held = next(iter(value.items()))
    if kind == "array_value":
        return "[" + ", ".join(words_of(item) for item in held.get("values", {}).values()) + "]"
    if kind == "kvlist_value":
        return "{" + ", ".join(f"{key}: {held}" for key, held in _pairs(held.get("values", {}))) + "}"
    if isinstance(held, bool):
        return "true" if held else "false"
    return held.hex() if isinstance(held, bytes) else str(held)


def _at(tree: Tree, *names: str) -> Tree:
    """The message or map below these names, empty where there is none."""
    for name in names:
        tree = tree.get(name, {})
    return dict(tree)


def _files(tree: Tree) -> Tuple[File, ...]:
    files = _at(tree, "effective_config", "config_map", "config_map")
    return tuple(File(str(name), file.get("content_type", ""), file.get("body", b"")) for name, file in files.items())


def _named(names: Sequence[str], number: int) -> str:
    return names[number] if 0 <= number < len(names) else f"status {number}"


def _pairs(attributes: Tree) -> List[Tuple[str, str]]:
    """KeyValues in their order."""
    return [(pair.get("key", ""), words_of(pair.get("value", {}))) for pair in attributes.values()]


def _no_texts(attributes: Tree) -> List[Tuple[str, str]]:
    """Keys with the words for values that aren't texts."""
    pairs = [(pair.get("key", ""), pair.get("value", {})) for pair in attributes.values()]
    return [(key, words_of(value)) for key, value in pairs if not (isinstance(value, dict) and "string_value" in value)]


def _summary(tree: Tree) -> Summary:
    description = _at(tree, "agent_description")
    identifying, others = (description.get(f"{kind}identifying_attributes", {}) for kind in ("", "non_"))
    return Summary(
        identifying=dict(_pairs(identifying)),
        others=dict(_pairs(others)),
        no_texts=frozenset(_no_texts(identifying) + _no_texts(others)),
        capabilities=tree.get("capabilities", 0),
        config=_config(tree.get("remote_config_status")),
        packages=_packages(_at(tree, "package_statuses")),
    )


def _config(status: Optional[Tree]) -> ConfigStatus:
    if status is None:
        return ConfigStatus()
    return ConfigStatus(
        state=_named(REMOTE_CONFIG_STATUSES, status.get("status", 0)),
        hash=status.get("last_remote_config_hash", b"").hex(),
        error=status.get("error_message", ""),
    )


def _packages(statuses: Tree) -> PackagesStatus:
    packages = tuple(
        PackageStatus(
            name=str(name),
            state=_named(PACKAGE_STATUSES, status.get("status", 0)),
            version=status.get("agent_has_version", ""),
            offered_version=status.get("server_offered_version", ""),
            error=status.get("error_message", ""),
        )
        for name, status in statuses.get("packages", {}).items()
    )
    return PackagesStatus(packages, statuses.get("server_provided_all_packages_hash", b"").hex(), statuses.get("error_message", ""))


def _health(told: Tree) -> Health:
    return Health(
        healthy=told.get("healthy", False),
        status=told.get("status", ""),
        error=told.get("last_error", ""),
        started=told.get("start_time_unix_nano", 0),
        told=told.get("status_time_unix_nano", 0),
        parts={str(name): _health(part) for name, part in told.get("component_health_map", {}).items()},
    )
