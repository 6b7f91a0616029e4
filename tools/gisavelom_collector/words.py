"""The words that the program takes."""
from __future__ import annotations

import argparse
import os
import shlex
import socket
from typing import List, Optional, Sequence, Tuple

from .messages import CAPABILITIES
from .problems import WordsRefused
from .settings import Settings, Times

ABOUT = """Runs a real collector beside this project's agent: it takes the files that the agent brings to the collector once the collector's own
check has passed them, starts, reloads and starts again, asks for the collector's health, and tells the agent all of it by
opamp.d/status/status.pb; so an offered configuration counts as good where the collector says that it runs it (agent --prove)."""

EXAMPLES = """A COMMAND has words, quoted as a shell has them; no shell runs it. {files} in it is the folder of the files, {own} the program's own
folder. All commands run in the agent's folder. A word @FILE stands for the lines of that file, each an option without its
dashes and a value: `run prometheus --config.file={files}/prometheus.yml`; empty lines and those that begin with # say nothing.

  collector --run "prometheus --config.file={files}/prometheus.yml --web.enable-lifecycle" \\
            --check "promtool check config {files}/prometheus.yml" \\
            --reload http://127.0.0.1:9090/-/reload --health http://127.0.0.1:9090/-/ready
  collector @examples/collectors/prometheus/options

SIGTERM and SIGINT end it and the collector; SIGHUP has it try once more what was refused.

status  0 ended by a signal   2 the words aren't right   3 another one runs over the same folder   9 a file or folder can't be used"""


class Parser(argparse.ArgumentParser):
    def convert_arg_line_to_args(self, line: str) -> List[str]:
        option, _, value = line.strip().partition(" ")
        return [f"--{option}={value.strip()}"] if option and not option.startswith("#") else []


def parser() -> argparse.ArgumentParser:
    words = Parser(prog="collector", description=ABOUT, epilog=EXAMPLES, formatter_class=argparse.RawDescriptionHelpFormatter,
                   fromfile_prefix_chars="@", allow_abbrev=False)
    words.add_argument("--run", required=True, metavar="COMMAND", help="runs the collector in the foreground")
    words.add_argument("--check", default="", metavar="COMMAND", help="checks the files of {files}: status 0 passes them. Without it all pass")
    words.add_argument("--reload", default="restart", metavar="hup|restart|URL|COMMAND",
                       help="how the collector takes other files up: by SIGHUP; by an end and a start, which is the default; by a POST; by a command")
    words.add_argument("--health", default="", metavar="URL|COMMAND",
                       help="a URL that answers 200 to 299, or a command that ends with 0, where the collector is healthy. Without it, it is while it runs")
    words.add_argument("--folder", default=".", help="the folder that the agent runs in: the current one")
    words.add_argument("--own", help="where the program keeps its own files: collector.d in the agent's folder")
    words.add_argument("--files", metavar="FOLDER", help="the collector's place for its files, a link that the program makes: `files` in its own folder")
    words.add_argument("--default", default="", metavar="FOLDER", help="files that are run while the agent has none")
    words.add_argument("--name", default="collector", help="the attribute service.name, which identifies the agent")
    words.add_argument("--attribute", type=_pair, action="append", default=[], metavar="KEY=VALUE", help="what else is said of the agent")
    words.add_argument("--capability", action="append", choices=CAPABILITIES, help="what the agent does and takes; without one all but packages")
    for name, seconds, what in (("quiet", 1, "files that didn't change for so long are all there"),
                                ("steady", 3, "a collector that is healthy for so long without a break works"),
                                ("patience", 20, "so long a start or a reload may take until the collector is healthy"),
                                ("check-seconds", 30, "so long a check or a reload by POST or command may take"),
                                ("stop-seconds", 10, "so long it may take to end behind SIGTERM")):
        words.add_argument(f"--{name}", type=_seconds, default=float(seconds), metavar="SECONDS", help=f"{what}: {seconds}")
    return words


def settings(words: Optional[Sequence[str]] = None) -> Settings:
    given = parser().parse_args(words)
    for name in ("run", "check", "health"):
        _quoted(name, getattr(given, name))
    if given.reload not in ("hup", "restart"):
        _quoted("reload", given.reload)
    if not given.run.split():
        raise WordsRefused("--run has no words")
    folder = os.path.realpath(given.folder)
    own = os.path.realpath(given.own) if given.own else os.path.join(folder, "collector.d")
    place = os.path.abspath(given.files) if given.files else os.path.join(own, "files")
    others = {"host.name": socket.gethostname(), **dict(given.attribute)}
    packages = CAPABILITIES["accepts-packages"] | CAPABILITIES["reports-packages"]
    capabilities = sum(CAPABILITIES[name] for name in set(given.capability)) if given.capability else sum(CAPABILITIES.values()) - packages
    times = Times(given.quiet, given.steady, given.patience, given.check_seconds, given.stop_seconds)
    default = os.path.abspath(given.default) if given.default else ""
    return Settings(folder, own, place, given.run, given.check, given.reload, given.health, default, given.name, tuple(sorted(others.items())),
                    capabilities, times)


def _quoted(name: str, command: str) -> None:
    try:
        shlex.split(command)
    except ValueError as why:
        raise WordsRefused(f"--{name}: {str(why).lower()}") from None


def _pair(word: str) -> Tuple[str, str]:
    key, between, value = word.partition("=")
    if not key or not between:
        raise argparse.ArgumentTypeError(f"{word} isn't KEY=VALUE")
    return key, value


def _seconds(word: str) -> float:
    value = float(word)
    if not 0 <= value <= 3600:
        raise argparse.ArgumentTypeError(f"{word} isn't between 0 and 3600")
    return value
