"""What is printed: tables with aligned columns, and agents' words made safe for a terminal."""
from __future__ import annotations

import unicodedata
from dataclasses import replace
from datetime import datetime, timezone
from typing import Callable, Dict, List, Optional, Sequence, Tuple

from .agents import Details, File, Health, PackageStatus, capability_names
from .fleet import Agent, View
from .lines import COUNTED, Aged

WIDEST = 40  # columns that a cell of the fleet's table takes at most

HEADS = ("AGENT", "HOST", "SERVICE", "VERSION", "STATE", "HEALTH", "REPORT", "AGE", "CONFIGURATION", "PACKAGES")
BRIEF_HEADS = ("AGENT", "STATE", "HEALTH", "REPORT", "AGE")
CLOSED_MARK = "!"  # behind an age, where the WebSocket that carried the report is closed


def plain(text: str) -> str:
    """The text without signs that a terminal would obey, or that would hide or turn round what stands beside them."""
    if text.isprintable():
        return text
    return "".join(sign if sign.isprintable() else f"\\u{ord(sign):04x}" for sign in text)


def width(text: str) -> int:
    """How many columns of a terminal the text takes (Unicode Standard Annex 11)."""
    return sum(0 if unicodedata.combining(sign) else 2 if unicodedata.east_asian_width(sign) in "WF" else 1 for sign in text)


def cut(text: str, columns: int) -> str:
    """The text, or its beginning with a mark where it is wider."""
    if width(text) <= columns:
        return text
    while width(text) >= columns:
        text = text[:-1]
    return text + "…"


def parts_of(counts: Sequence[int], columns: int) -> List[int]:
    """How many of the columns each count takes of a bar: in proportion, and one at least where it isn't 0."""
    total = max(1, sum(counts))
    parts = [max(count * columns // total, int(count > 0)) for count in counts]
    while sum(parts) > columns:
        parts[parts.index(max(parts))] -= 1
    # What is left goes to those that lost most by being rounded down.
    lost = sorted(range(len(counts)), key=lambda at: parts[at] * total - counts[at] * columns)
    for at in lost[:columns - sum(parts) if any(counts) else 0]:
        parts[at] += 1
    return parts


def aligned(rows: Sequence[Sequence[str]], widest: Optional[int] = WIDEST) -> List[str]:
    """The rows' lines, each column as wide as its widest cell; cells are cut that are wider than is said, if it is."""
    cells = [[plain(cell) or "-" for cell in row] for row in rows]
    safe = cells if widest is None else [[cut(cell, widest) for cell in row] for row in cells]
    widths = [max(width(row[at]) for row in safe) for at in range(len(safe[0]))] if safe else []
    return ["  ".join(cell + " " * (wide - width(cell)) for cell, wide in zip(row, widths)).rstrip() for row in safe]


def fleet_table(agents: Sequence[Agent], brief: bool, servers: bool, now: Optional[float] = None) -> List[str]:
    """The fleet's table: what needn't be asked agent by agent where it is brief; with each agent's server where there are several, and where a moment is
    given with how long no report was seen here."""
    heads = [*(BRIEF_HEADS if brief else HEADS), *(["SERVER"] if servers else []), *(["SILENT"] if now is not None else [])]
    rows = [[*_cells(agent, brief), *([str(agent.server)] if servers else []), *([while_of(now - agent.since)] if now is not None else [])] for agent in agents]
    return aligned([heads, *rows])


def while_of(seconds: float) -> str:
    """A time in one unit."""
    for unit, size in (("d", 86_400), ("h", 3_600), ("m", 60)):
        if seconds >= size:
            return f"{int(seconds / size)}{unit}"
    return f"{int(max(seconds, 0))}s"


def age_words(age: Optional[Aged]) -> str:
    """How long ago the last report was taken, with a mark where its WebSocket is closed; `-` where that isn't told."""
    if age is None:
        return "-"
    return while_of(age.seconds) + (CLOSED_MARK if age.way == "closed" else "")


WAYS = {"open": "over WebSocket", "closed": "over a WebSocket that is closed", "http": "over HTTP"}


def age_sentence(age: Optional[Aged]) -> str:
    """The same in words; nothing where it isn't told."""
    return f"{while_of(age.seconds)} ago {WAYS[age.way]}" if age else ""


def count_table(view: View) -> List[str]:
    """A row with the counts of each server, `-` where it doesn't tell them."""
    rows = [[str(address), *(str(view.counts[address][name]) if address in view.counts else "-" for name in COUNTED)] for address in view.servers]
    return aligned([["SERVER", *(name.upper() for name in COUNTED)], *rows], None)


def counts_json(view: View) -> List[Dict[str, object]]:
    """The same, as `count --json` writes it."""
    return [{"server": str(address), **{name: view.counts[address][name] if address in view.counts else None for name in COUNTED}} for address in view.servers]


def _cells(agent: Agent, brief: bool) -> List[str]:
    told = agent.listed
    front = [told.presence, told.health, str(told.number), age_words(agent.age)]
    if brief:
        return [agent.uid, *front]
    if agent.summary is None:
        return [agent.uid, "?", "?", "?", *front, "?", "?"]
    summary = agent.summary
    service = [summary.attribute("host.name"), summary.attribute("service.name"), summary.attribute("service.version")]
    return [agent.uid, *service, *front, "-" if summary.config.state == "none" else summary.config.state, summary.packages.words()]


SORTS: Dict[str, Callable[[Agent], object]] = {
    "agent": lambda agent: "",
    "host": lambda agent: agent.summary.attribute("host.name") if agent.summary else "",
    "service": lambda agent: agent.summary.attribute("service.name") if agent.summary else "",
    "version": lambda agent: agent.summary.attribute("service.version") if agent.summary else "",
    "state": lambda agent: agent.listed.presence,
    "health": lambda agent: agent.listed.health,
    "report": lambda agent: agent.listed.number,
    "age": lambda agent: -agent.age.seconds if agent.age else 1,  # the longest ago first, and behind all those of which it isn't told
    "configuration": lambda agent: agent.summary.config.state if agent.summary else "",
    "packages": lambda agent: agent.summary.packages.words() if agent.summary else "",
}
BRIEF_SORTS = ("agent", "state", "health", "report", "age")  # those for which no agent has to be asked for


def sorting(column: str) -> Callable[[Agent], Tuple[object, str]]:
    """The order by a column, and by identifiers within it."""
    return lambda agent: (SORTS[column](agent), agent.uid)


def agent_json(agent: Agent) -> Dict[str, object]:
    """An agent of the fleet, as `list --json` writes it."""
    told: Dict[str, object] = {
        "uid": agent.uid,
        "server": str(agent.server),
        "state": agent.listed.presence,
        "health": agent.listed.health,
        "number": agent.listed.number,
        "age": agent.age.seconds if agent.age else None,
        "connection": agent.age.way if agent.age else None,
    }
    if agent.summary is not None:
        summary = agent.summary
        told["service"] = {"name": summary.attribute("service.name"), "version": summary.attribute("service.version")}
        told["identifying_attributes"] = summary.identifying
        told["non_identifying_attributes"] = summary.others
        told["capabilities"] = capability_names(summary.capabilities)
        told["configuration"] = {"status": summary.config.state, "hash": summary.config.hash, "error": summary.config.error}
        told["packages"] = {
            "hash": summary.packages.hash,
            "error": summary.packages.error,
            "packages": [package_json(package) for package in summary.packages.packages],
        }
    return told


def package_json(package: PackageStatus) -> Dict[str, str]:
    """What the agent says of one package."""
    return {
        "name": package.name,
        "status": package.state,
        "version": package.version,
        "offered_version": package.offered_version,
        "error": package.error,
    }


def health_json(health: Health) -> Dict[str, object]:
    """The health of an agent or a part, with that of its parts below."""
    return {
        "healthy": health.healthy,
        "status": health.status,
        "error": health.error,
        "started": moment(health.started),
        "told": moment(health.told),
        "parts": {name: health_json(part) for name, part in health.parts.items()},
    }


def details_json(agent: Agent, details: Details, longest: Optional[int] = None) -> Dict[str, object]:
    """All that is known of an agent, as `show --json` writes it; of a file so many characters at most, where that is given."""
    told = agent_json(replace(agent, summary=details.summary))
    told["health_tree"] = health_json(details.health) if details.health else None
    told["effective_configuration"] = [file_json(file, longest) for file in details.files]
    told["custom_capabilities"] = list(details.custom_capabilities)
    told["components_hash"] = details.components_hash
    return told


def file_json(file: File, longest: Optional[int] = None) -> Dict[str, object]:
    """A file with its content, as `text` where it is UTF-8 and else as `hex`; `cut` says that only the beginning is there."""
    kind, content = content_of(file.body)
    told: Dict[str, object] = {"name": file.name, "type": file.content_type, "bytes": len(file.body), kind: content[:longest]}
    return {**told, "cut": True} if longest is not None and len(content) > longest else told


def content_of(body: bytes) -> Tuple[str, str]:
    """`text` and the text of UTF-8, else `hex` and the bytes in hexadecimal."""
    try:
        return "text", body.decode()
    except UnicodeDecodeError:
        return "hex", body.hex()


def moment(nanoseconds: int) -> str:
    """A moment in nanoseconds since 1970 in UTC, empty for 0."""
    return datetime.fromtimestamp(nanoseconds // 1_000_000_000, timezone.utc).strftime("%Y-%m-%d %H:%M:%S UTC") if nanoseconds else ""


def details_page(agent: Agent, details: Details) -> List[str]:
    """All that is known of an agent, for a terminal."""
    summary = details.summary
    config, packages = summary.config, summary.packages
    lines = aligned_pairs([
        ("agent", agent.uid),
        ("server", str(agent.server)),
        ("state", joined(agent.listed.presence, agent.listed.health, f"report {agent.listed.number}", age_sentence(agent.age))),
        ("capabilities", ", ".join(capability_names(summary.capabilities))),
        ("custom", ", ".join(details.custom_capabilities)),
        ("configuration", joined(config.state, config.hash and f"of {config.hash}", config.error)),
        ("packages", joined(packages.words(), packages.hash and f"of {packages.hash}", packages.error)),
    ])
    for title, attributes in (("identifying attributes", summary.identifying), ("other attributes", summary.others)):
        lines += _section(title, aligned_pairs(list(attributes.items())))
    if details.health:
        lines += _section("health", _health_lines("agent", details.health, ""))
    lines += _section("package statuses", [
        plain(joined(f"{each.name} {each.version or '-'}", each.state, each.offered_version and f"offered {each.offered_version}", each.error))
        for each in packages.packages
    ])
    for file in details.files:
        title = f"{file.name or '(no name)'} ({file.content_type or 'no type'}, {len(file.body):,} bytes)"
        lines += _section(plain(f"effective configuration: {title}"), _body_lines(file.body))
    return lines


def joined(*parts: str) -> str:
    """What is told, with commas between."""
    return ", ".join(part for part in parts if part)


def aligned_pairs(pairs: Sequence[Sequence[str]]) -> List[str]:
    """Names with their values, the values one below the other; a pair without a value is left out."""
    told = [(plain(name), plain(value)) for name, value in pairs if value]
    widest = max((width(name) for name, _ in told), default=0)
    return [name + " " * (widest - width(name)) + "  " + value for name, value in told]


def _section(title: str, lines: Sequence[str]) -> List[str]:
    return ["", title, *("  " + line for line in lines)] if lines else []


def _health_lines(name: str, health: Health, indent: str) -> List[str]:
    since = f"since {moment(health.started)}" if health.started else ""
    lines = [plain(f"{indent}{name}: " + joined("healthy" if health.healthy else "unhealthy", health.status, health.error, since))]
    for part, below in health.parts.items():
        lines += _health_lines(part, below, indent + "  ")
    return lines


def _body_lines(body: bytes) -> List[str]:
    kind, content = content_of(body)
    return [plain(line.expandtabs(8)) for line in content.split("\n")] if kind == "text" else ["hex " + content]
