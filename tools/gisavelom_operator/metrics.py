"""The fleet in Prometheus's text format ("Exposition formats", text-based format 0.0.4), for the collector of text files."""
from __future__ import annotations

from collections import Counter
from typing import Dict, List, Sequence, Tuple

from .agents import REMOTE_CONFIG_STATUSES, PACKAGE_STATUSES
from .fleet import Agent, View
from .lines import COUNTED, Address

Labels = Tuple[Tuple[str, str], ...]

PRESENCES = ("here", "left")
HEALTHS = ("healthy", "unhealthy", "unknown")

# What a server counts, by the words of COUNTED: the family's name and its help.
COUNT_FAMILIES = {
    "agents": ("gisavelom_server_agents", "Agents that the server holds."),
    "here": ("gisavelom_server_agents_here", "Agents that the server holds and that haven't left."),
    "healthy": ("gisavelom_server_agents_healthy", "Agents that the server holds, and that are healthy."),
    "unhealthy": ("gisavelom_server_agents_unhealthy", "Agents that the server holds, and that are unhealthy."),
    "connections": ("gisavelom_server_connections", "Connections that the server knows."),
    "reports": ("gisavelom_server_reports_total", "Reports that the server took since its run began."),
    "orders": ("gisavelom_server_orders", "Offers that stand at the server."),
    "rollouts": ("gisavelom_server_rollouts", "Rollouts that the server holds."),
}


def metrics_text(view: View, silences: Sequence[int] = (), each: bool = False) -> str:
    """The fleet; each series of the known words is there, also where it is 0. For each of the silences how many agents are silent so long; each has the
    hash of every agent's configuration too."""
    lines = _fleet_lines(view) + _age_lines(view, silences) + _server_lines(view)
    if each:
        lines += _family("gisavelom_agent_configuration", "The hash of the configuration that was offered to the agent last, and what it says of it.",
                         {labels: 1 for agent in view.agents for labels in _configuration(agent)})
    return "".join(line + "\n" for line in lines)


def _fleet_lines(view: View) -> List[str]:
    """What is counted here, each agent once."""
    agents: Dict[Labels, int] = {(("state", state), ("health", health)): 0 for state in PRESENCES for health in HEALTHS}
    agents.update(Counter((("state", agent.listed.presence), ("health", agent.listed.health)) for agent in view.agents))
    summaries = [agent.summary for agent in view.agents if agent.summary]
    configs: Dict[Labels, int] = {(("status", status),): 0 for status in ("none", *REMOTE_CONFIG_STATUSES)}
    configs.update(Counter((("status", summary.config.state),) for summary in summaries))
    packages: Dict[Labels, int] = {(("status", status),): 0 for status in PACKAGE_STATUSES}
    packages.update(Counter((("status", package.state),) for summary in summaries for package in summary.packages.packages))
    hashes: Dict[Labels, int] = dict(Counter((("hash", summary.config.hash[:12]),) for summary in summaries if summary.config.state == "applied"))
    lines = _family("gisavelom_agents", "Agents that the servers hold, by whether they are here or left and by their health.", agents)
    lines += _family("gisavelom_configurations", "Agents by what they say of the configuration that was offered last.", configs)
    lines += _family("gisavelom_applied_configurations", "Agents by the first twelve digits of the hash of the configuration that they applied.", hashes)
    return lines + _family("gisavelom_packages", "Packages of all agents by their status.", packages)


def _age_lines(view: View, silences: Sequence[int]) -> List[str]:
    """How long ago reports were taken of agents that are here, by the server that each of them reports to. Nothing of a server that tells no ages."""
    ages: Dict[Address, List[int]] = {}
    for agent in view.agents:
        if agent.is_here and agent.age:
            ages.setdefault(agent.server, []).append(agent.age.seconds)
    oldest: Dict[Labels, int] = {(("server", str(address)),): max(ages[address]) for address in view.servers if address in ages}
    silent: Dict[Labels, int] = {(("server", str(address)), ("seconds", str(least))): sum(age >= least for age in ages.get(address, []))
                                 for address in view.aged for least in silences}
    lines = _family("gisavelom_oldest_report_seconds", "How long ago the last report was taken of the agent that is here and silent for longest.", oldest)
    if silences:
        lines += _family("gisavelom_silent_agents", "Agents that are here and whose last report was taken so many seconds ago at least.", silent)
    return lines


def _server_lines(view: View) -> List[str]:
    """Which servers answered, and what each counts itself. Nothing of one that doesn't tell its counts."""
    up: Dict[Labels, int] = {(("server", str(address)),): int(address in view.heard) for address in view.servers}
    lines = _family("gisavelom_server_up", "Whether the server answered its operators' port.", up)
    for word in COUNTED:
        name, help_text = COUNT_FAMILIES[word]
        series: Dict[Labels, int] = {(("server", str(address)),): view.counts[address][word] for address in view.servers if address in view.counts}
        lines += _family(name, help_text, series)
    return lines


def _configuration(agent: Agent) -> List[Labels]:
    """The labels of an agent's configuration, where it tells a hash."""
    if not agent.summary or not agent.summary.config.hash:
        return []
    config = agent.summary.config
    return [(("agent", agent.uid), ("server", str(agent.server)), ("status", config.state), ("hash", config.hash))]


def _family(name: str, help_text: str, series: Dict[Labels, int]) -> List[str]:
    """The lines of a family; by its name it is a counter, or a gauge. None where there is no series."""
    if not series:
        return []
    values = [f"{name}{{{','.join(f'{label}={quoted(value)}' for label, value in labels)}}} {number}" for labels, number in series.items()]
    return [f"# HELP {name} {help_text}", f"# TYPE {name} {'counter' if name.endswith('_total') else 'gauge'}", *values]


def quoted(value: str) -> str:
    """A label's value: a backslash, a quotation mark and a line feed are escaped."""
    return '"' + value.replace("\\", "\\\\").replace('"', '\\"').replace("\n", "\\n") + '"'
