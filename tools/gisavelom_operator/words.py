"""The words of the program: options, commands and their examples."""
from __future__ import annotations

import argparse
import re
from typing import Tuple

from .lines import DEFAULT_SERVER, FATES, Address
from .tables import SORTS

DESCRIPTION = """Looks at a fleet of agents and orders through the ports for operators of its servers.

A UID is an agent's identifier, a beginning of it that only one agent has (of four signs at least in an order), or KEY=VALUE, an
attribute that only one agent told, as host.name=web-17."""

EXAMPLES = """examples:
  operator list                                     the fleet as a table
  operator list --watch --where service.name=my-agent
  operator show 9020                                all that is known of the agent whose identifier begins so
  operator config 9020 agent.yaml                   offers it this file as its configuration
  operator wait 9020 applied --file agent.yaml      until the agent says that it applied this file
  operator config --where service.name=my-agent agent.yaml
  operator packages 9020 tool 1.2 http://127.0.0.1:8000/tool ./tool
  operator connect 9020 ws://127.0.0.1:4320
  operator settings 9020 --seconds 60 --header 'Authorization:Bearer x'
  operator waits 9020                               the offers that it hasn't taken yet
  operator withdraw 9020                            takes them back
  operator rollout begin main 50/3 agent.yaml       to fifty agents at a time, no further once more than three failed
  operator rollout begin canary 5/0 --where zone=a agent.yaml --watch
  operator rollout list --watch                     how far they are
  operator rollout members main --only failed       at which agents it failed, and what they say
  operator rollout halt main                        until `rollout resume main`; `rollout finish main` takes it away
  operator forget --left                            the agents that have left aren't known any more
  operator metrics --file /var/lib/node_exporter/gisavelom.prom
  operator list --health unhealthy --sort host
  operator list --state here --older 300 --sort age agents that fell silent, the longest silent first
  operator count                                    what each server has
  operator restart host.name=web-17
  operator restart zone=a --each --dry-run          who would be told
  operator wait zone=a healthy --each
  operator apply wanted --watch                     orders what differs from the table and files in this folder
  operator apply --etcd http://127.0.0.1:2379       once, from the keys below wanted/ in etcd
  operator wanted status wanted                     how the fleet stands to it
  operator page                                     a page for a browser at http://127.0.0.1:4380
  operator --server 10.0.0.1:4322 --server 10.0.0.2:4322 list

exit status:
  0 done; 2 words refused; 3 no server there, or it doesn't answer; 4 an order refused; 5 no such agent, or rollout;
  6 more than one such agent; 7 time over; 8 an agent says that the offer failed, or a rollout is halted;
  9 a file can't be read or written or isn't right, or the page's port can't be listened to;
  10 what listens there doesn't speak operators' lines; 11 an order for many wasn't said to be meant; 130 broken off"""

CONFIG_USAGE = "operator config [-h] [--name NAME] [--type TYPE] (UID | --all | --where KEY=VALUE ..) FILE .."
CONFIG = """Offers a configuration of these files. It takes the place of the one offered before; an agent that applies it has these
files alone."""
SETTINGS = """Offers settings of the connection, in place of those offered before. What isn't given isn't set."""
PACKAGES = """Offers packages, in place of those offered before. FILE is the package's file here, of which the content's hash is
told; the agent fetches it from URL. An agent removes packages that aren't offered any more."""
BEGIN = """Begins a rollout of a configuration of these files at each server that is given. The server offers it to WIDTH agents at a time, and to no
further one once more than ALLOWED of them failed. All agents join that are here or come, take configurations and tell what became of
them. Each server counts its own agents, so several servers have WIDTH at a time each."""
FOLLOWED = "draw how far it is each second, until it is over or halted; of several rollouts, until none goes on"
FORGET = """Has what is known of an agent, with all that waits for it and its places in rollouts, be forgotten at each server that holds it. An agent that
reports again is known again."""
WAIT = """Waits until an agent's configuration is applied or its packages are installed, or until it is here, left, healthy or
unhealthy. Without --file and --hash `applied` and `installed` may be said of a former offer, until the agent reports of the new
one."""

APPLY = """Orders what differs, by the agents' own words, from the state that is wanted: lines SELECTOR FILE .. of the file `table` in FOLDER, or
of the key `table` in etcd, and the files that it names. tools/README.md has the table's form. It may be broken off and begun again, and
run several times at once."""


def attribute(given: str) -> Tuple[str, str]:
    """KEY=VALUE."""
    key, between, value = given.partition("=")
    if not key or not between:
        raise argparse.ArgumentTypeError(f"{given} isn't KEY=VALUE, as service.name=my-agent")
    return key, value


def terms(given: str) -> Tuple[int, int]:
    """WIDTH/ALLOWED: two whole numbers below 2^64, of which ALLOWED is below WIDTH."""
    found = re.fullmatch("([0-9]{1,20})/([0-9]{1,20})", given)
    if not found or not int(found[2]) < int(found[1]) < 2**64:
        raise argparse.ArgumentTypeError(f"{given} isn't WIDTH/ALLOWED, as 50/3, with ALLOWED below WIDTH")
    return int(found[1]), int(found[2])


def header(given: str) -> Tuple[str, str]:
    """NAME:VALUE, or NAME: VALUE."""
    name, between, value = given.partition(":")
    if not name or not between:
        raise argparse.ArgumentTypeError(f"{given} isn't NAME:VALUE, as Authorization:Bearer x")
    return name, value.strip(" ")


def interval(given: str) -> int:
    """Whole seconds below 2^64."""
    if not (given.isascii() and given.isdigit() and len(given) <= 20 and int(given) < 2**64):
        raise argparse.ArgumentTypeError(f"{given} isn't a whole number of seconds")
    return int(given)


def seconds(given: str) -> float:
    """A time of 0 seconds or more."""
    try:
        told = float(given)
    except ValueError:
        told = -1.0
    if not 0 <= told < 1e9:
        raise argparse.ArgumentTypeError(f"{given} isn't a number of seconds")
    return told


def patience(given: str) -> float:
    """A time above 0 seconds."""
    told = seconds(given)
    if not told:
        raise argparse.ArgumentTypeError("0 seconds is no time to answer in")
    return told


def port(given: str) -> int:
    """A port of TCP; 0 has the system choose one."""
    if not given.isdigit() or int(given) > 65535:
        raise argparse.ArgumentTypeError(f"{given} isn't a port")
    return int(given)


def parser() -> argparse.ArgumentParser:
    """Reads the words that the program was given."""
    layout = argparse.RawDescriptionHelpFormatter
    words = argparse.ArgumentParser("operator", description=DESCRIPTION, epilog=EXAMPLES, formatter_class=layout)
    words.add_argument("--server", action="append", metavar="HOST:PORT",
                       help=f"a server's port for operators, {DEFAULT_SERVER} where none is given; several servers are seen as one fleet")
    words.add_argument("--timeout", type=patience, default=10.0, metavar="SECONDS", help="how long a server may take to answer (10)")
    commands = words.add_subparsers(dest="command", metavar="COMMAND", required=True)
    _add_looking(commands)
    _add_orders(commands)
    _add_rollouts(commands)
    _add_waiting(commands)
    _add_applying(commands)
    _add_wanted(commands)
    _add_serving(commands)
    return words


def _add_looking(commands: argparse._SubParsersAction[argparse.ArgumentParser]) -> None:
    listing = commands.add_parser("list", help="the fleet as a table")
    form = listing.add_mutually_exclusive_group()
    form.add_argument("--watch", action="store_true", help="draw it again each second")
    form.add_argument("--json", action="store_true", help="as JSON, with all attributes")
    listing.add_argument("--brief", action="store_true", help="leave out what has to be asked agent by agent")
    listing.add_argument("--health", choices=["healthy", "unhealthy", "unknown"], default="", help="only agents of this health")
    listing.add_argument("--state", choices=["here", "left"], default="", help="only agents that are here, or that have left")
    listing.add_argument("--older", type=seconds, default=None, metavar="SECONDS", help="only agents whose last report was taken so long ago at least")
    listing.add_argument("--sort", choices=list(SORTS), default="agent", metavar="COLUMN", help=f"by {', '.join(SORTS)}")
    _add_where(listing)
    counting = commands.add_parser("count", help="how many agents, connections, reports, orders and rollouts each server has")
    counting.add_argument("--json", action="store_true", help="as JSON")
    showing = commands.add_parser("show", help="all that is known of an agent")
    showing.add_argument("uid", metavar="UID")
    waiting = commands.add_parser("waits", help="what waits for an agent")
    waiting.add_argument("uid", metavar="UID")
    forms = showing.add_mutually_exclusive_group()
    forms.add_argument("--json", action="store_const", dest="form", const="json", default="page", help="as JSON")
    forms.add_argument("--lines", action="store_const", dest="form", const="lines", help="the server's text as it is")


def _add_orders(commands: argparse._SubParsersAction[argparse.ArgumentParser]) -> None:
    config = commands.add_parser("config", help="offer a configuration of files", usage=CONFIG_USAGE, description=CONFIG)
    config.add_argument("--all", action="store_true", help="to all agents that are here and take configurations, in place of UID")
    _add_where(config)
    _add_file_names(config)
    _add_yes(config)
    _add_dry_run(config)
    config.add_argument("words", nargs="+", metavar="UID FILE ..")
    packages = commands.add_parser("packages", help="offer packages", description=PACKAGES)
    packages.add_argument("uid", metavar="UID")
    packages.add_argument("words", nargs="+", metavar="NAME VERSION URL FILE")
    connect = commands.add_parser("connect", help="offer another endpoint")
    connect.add_argument("uid", metavar="UID")
    connect.add_argument("url", metavar="URL")
    connect.add_argument("--as-is", action="store_true", help="also what this project's agents don't try, as wss://")
    settings = commands.add_parser("settings", help="offer an endpoint, an interval and headers", description=SETTINGS)
    settings.add_argument("uid", metavar="UID")
    settings.add_argument("--url", default="", help="the endpoint")
    settings.add_argument("--as-is", action="store_true", help="also one that this project's agents don't try, as wss://")
    settings.add_argument("--seconds", type=interval, default=0, metavar="N", help="the longest time between two reports (0: not set)")
    settings.add_argument("--header", action="append", type=header, default=[], metavar="NAME:VALUE", help="a header to send; as often as there are headers")
    withdraw = commands.add_parser("withdraw", help="take back what waits for an agent")
    withdraw.add_argument("uid", metavar="UID")
    restart = commands.add_parser("restart", help="have an agent restart")
    restart.add_argument("uid", metavar="UID")
    _add_each(restart)
    _add_yes(restart)
    _add_dry_run(restart)
    forget = commands.add_parser("forget", help="have an agent, or all that have left, be forgotten", description=FORGET)
    forgotten = forget.add_mutually_exclusive_group(required=True)
    forgotten.add_argument("uid", nargs="?", default="", metavar="UID")
    forgotten.add_argument("--left", action="store_true", help="all agents that have left")
    _add_yes(forget)
    _add_dry_run(forget)
    _add_yes(commands.add_parser("stop", help="end the server"))


def _add_rollouts(commands: argparse._SubParsersAction[argparse.ArgumentParser]) -> None:
    deeds = commands.add_parser("rollout", help="roll a configuration out, a few agents at a time").add_subparsers(dest="deed", metavar="DEED", required=True)
    begin = deeds.add_parser("begin", help="begin one", description=BEGIN)
    begin.add_argument("id", metavar="ID", help="its name: 1 to 64 letters, digits, `-` and `_`")
    begin.add_argument("terms", type=terms, metavar="WIDTH/ALLOWED", help="so many agents at a time; halted where more than so many fail")
    begin.add_argument("files", nargs="+", metavar="FILE")
    begin.add_argument("--where", action="append", type=attribute, default=[], metavar="KEY=VALUE", help="only agents that told this attribute as a text")
    _add_file_names(begin)
    _add_yes(begin)
    _add_dry_run(begin)
    _add_watch(begin)
    listing = deeds.add_parser("list", help="how far they are")
    listing.add_argument("id", nargs="*", metavar="ID", help="only these")
    listing.add_argument("--json", action="store_true", help="as JSON")
    _add_watch(listing)
    members = deeds.add_parser("members", help="the agents of one, and what became of the offer at each")
    members.add_argument("id", metavar="ID")
    members.add_argument("--only", choices=FATES, default="", help="only agents at which the offer is so")
    form = members.add_mutually_exclusive_group()
    form.add_argument("--json", action="store_const", dest="form", const="json", default="table", help="as JSON")
    form.add_argument("--brief", action="store_const", dest="form", const="brief", help="leave out what has to be asked agent by agent")
    for deed, what in (("halt", "have it make no further offers"), ("resume", "end its halt; failures count anew from there"),
                       ("finish", "take it away; what it offered stands as any offer")):
        steering = deeds.add_parser(deed, help=what)
        steering.add_argument("id", metavar="ID")
        if deed == "resume":
            _add_watch(steering)


def _add_waiting(commands: argparse._SubParsersAction[argparse.ArgumentParser]) -> None:
    waiting = commands.add_parser("wait", help="wait until something is so", description=WAIT)
    waiting.add_argument("uid", metavar="UID")
    waiting.add_argument("what", choices=["applied", "installed", "here", "left", "healthy", "unhealthy"])
    _add_each(waiting)
    waiting.add_argument("--seconds", type=seconds, default=120.0, metavar="N", help="how long at most (120)")
    offer = waiting.add_mutually_exclusive_group()
    offer.add_argument("--file", action="append", default=[], help="applied: this file, offered as `config` does with the same --name and --type; as often as there are files")
    offer.add_argument("--hash", default="", help="applied, installed: the offer of this hash, which `config` and `packages` print")
    _add_file_names(waiting)


def _add_applying(commands: argparse._SubParsersAction[argparse.ArgumentParser]) -> None:
    apply = commands.add_parser("apply", help="order what differs from a wanted state", description=APPLY)
    _add_source(apply)
    how = apply.add_mutually_exclusive_group()
    how.add_argument("--watch", action="store_true", help="again and again, as the fleet and what is wanted change")
    how.add_argument("--wait", type=patience, default=0.0, metavar="SECONDS", help="until each agent has what is wanted, so long at most")
    how.add_argument("--dry-run", action="store_true", help="only tell what would be ordered")
    apply.add_argument("--every", type=patience, default=2.0, metavar="SECONDS", help="with --watch and --wait: between two looks (2)")
    _add_yes(apply)


def _add_wanted(commands: argparse._SubParsersAction[argparse.ArgumentParser]) -> None:
    deeds = commands.add_parser("wanted", help="look at a wanted state, or change it in etcd").add_subparsers(dest="deed", metavar="DEED", required=True)
    _add_source(deeds.add_parser("check", help="whether the table and its files are right; no server is asked"))
    status = _add_source(deeds.add_parser("status", help="how many agents stand how to it, line by line"))
    status.add_argument("--json", action="store_true", help="as JSON, with all agents")
    diff = _add_source(deeds.add_parser("diff", help="the agents that haven't what is wanted"))
    diff.add_argument("--agent", default="", metavar="UID", help="the files that this agent tells beside those wanted")
    edit = _add_etcd(deeds.add_parser("edit", help="edit the table, or a file, in etcd by the editor that EDITOR names"))
    edit.add_argument("path", nargs="?", default="table", metavar="PATH", help="a file's path; else the table")
    put = _add_etcd(deeds.add_parser("put", help="make what stands in etcd that of a folder, in one change"))
    put.add_argument("folder", metavar="FOLDER")
    _add_yes(put)
    _add_etcd(deeds.add_parser("get", help="write what stands in etcd into a folder")).add_argument("folder", metavar="FOLDER")


def _add_source(command: argparse.ArgumentParser) -> argparse.ArgumentParser:
    command.add_argument("folder", nargs="?", default="", metavar="FOLDER", help="the folder that has the file `table` and the files that it names")
    return _add_etcd(command)


def _add_etcd(command: argparse.ArgumentParser) -> argparse.ArgumentParser:
    command.add_argument("--etcd", action="append", default=[], metavar="URL", help="a member of etcd, as http://127.0.0.1:2379; once for each member")
    command.add_argument("--prefix", default="wanted/", help="the keys' beginning in etcd (wanted/)")
    for name, what in (("authority", "the authority that a member's certificate is of"), ("certificate", "this program's certificate"), ("key", "its key")):
        command.add_argument(f"--etcd-{name}", default="", metavar="FILE", help=f"with https: {what}")
    return command


def _add_serving(commands: argparse._SubParsersAction[argparse.ArgumentParser]) -> None:
    metrics = commands.add_parser("metrics", help="the fleet in Prometheus's text format")
    metrics.add_argument("--file", default="", help="put it whole into this file's place; it is printed else")
    metrics.add_argument("--older", action="append", type=interval, default=[], metavar="SECONDS",
                         help="how many agents are here whose last report was taken so long ago at least; as often as is wanted")
    metrics.add_argument("--each", action="store_true", help="the hash of each agent's configuration, too")
    page = commands.add_parser("page", help="a page for a browser on this machine")
    page.add_argument("--port", type=port, default=4380, help="on the loopback address (4380)")


def _add_where(command: argparse.ArgumentParser) -> None:
    command.add_argument("--where", action="append", type=attribute, default=[], metavar="KEY=VALUE",
                         help="only agents that told this attribute; all of them hold where several are given")


def _add_watch(command: argparse.ArgumentParser) -> None:
    command.add_argument("--watch", action="store_true", help=FOLLOWED)
    command.add_argument("--seconds", type=seconds, default=0.0, metavar="N", help="with --watch: so long at most (0: without end)")


def _add_yes(command: argparse.ArgumentParser) -> None:
    command.add_argument("--yes", action="store_true", help="ask nothing; an order for many and `stop` take it where no terminal is there")


def _add_each(command: argparse.ArgumentParser) -> None:
    command.add_argument("--each", action="store_true", help="each agent that UID names, and not the only one")


def _add_dry_run(command: argparse.ArgumentParser) -> None:
    command.add_argument("--dry-run", action="store_true", help="of an order for many: only tell who would be ordered")


def _add_file_names(command: argparse.ArgumentParser) -> None:
    command.add_argument("--name", default="", help="the name of the file for the agent; else its own")
    command.add_argument("--type", default="", help="its content type, `-` for none; else by its ending")


def addresses(given: argparse.Namespace) -> Tuple[Address, ...]:
    """The servers, each once, in the order in which they were given."""
    return tuple(dict.fromkeys(Address.read(word) for word in given.server or [DEFAULT_SERVER]))
