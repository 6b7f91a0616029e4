"""From the words given to an exit status."""
from __future__ import annotations

import argparse
import os
import sys
from contextlib import closing
from typing import Optional, Sequence, TextIO

from . import applying, commands, rollouts, stored
from .commands import Desk, Listing, Wanted
from .etcd import Etcd, Member, Trust
from .fleet import Fleet
from .lines import Session, endpoint
from .offers import OfferedConfig, OfferedFile, OfferedSettings
from .page import serve_page
from .problems import Problem, WordsRefused
from .sources import EtcdSource, Folder, Source
from .tables import BRIEF_SORTS, plain
from .words import addresses, parser


def main(words: Optional[Sequence[str]] = None, out: TextIO = sys.stdout, err: TextIO = sys.stderr, asked: TextIO = sys.stdin) -> int:
    """Runs the command that the words say, and gives the exit status."""
    given = parser().parse_args(words)
    fleet: Optional[Fleet] = None
    try:
        fleet = Fleet([Session(address, given.timeout) for address in addresses(given)])
        run(given, Desk(fleet, out, err, asked))
        return 0
    except Problem as problem:
        print(f"operator: {plain(str(problem))}", file=err)
        return problem.status
    except KeyboardInterrupt:
        is_endless = getattr(given, "watch", False) and given.command != "rollout" or given.command == "page"
        return 0 if is_endless else 130
    except BrokenPipeError:
        # What reads the output has ended; nothing is left to be written to it when the program ends.
        os.dup2(os.open(os.devnull, os.O_WRONLY), sys.stdout.fileno())
        return 1
    finally:
        if fleet:
            fleet.close()


def run(given: argparse.Namespace, desk: Desk) -> None:
    """The command with its arguments."""
    command = given.command
    if command == "list" and given.watch:
        commands.watch_agents(desk, _listing(given))
    elif command == "list":
        commands.list_agents(desk, _listing(given), given.json)
    elif command == "show":
        commands.show_agent(desk, given.uid, given.form)
    elif command == "waits":
        commands.show_waiting(desk, given.uid)
    elif command == "wait":
        (commands.wait_for_each if given.each else commands.wait_for)(desk, given.uid, _wanted(given), given.seconds)
    elif command == "count":
        commands.show_counts(desk, given.json)
    elif command == "metrics":
        commands.write_metrics(desk, given.file, sorted(set(given.older)), given.each)
    elif command == "apply":
        _apply(given, desk)
    elif command == "wanted":
        _wanted_state(given, desk)
    elif command == "page":
        serve_page(desk, given.port)
    elif command == "rollout":
        _rollout(given, desk)
    else:
        _order(given, desk)


def _order(given: argparse.Namespace, desk: Desk) -> None:
    """An order to agents, or one that takes them or their server away."""
    command = given.command
    if command == "config":
        _config(given, desk)
    elif command == "packages":
        commands.offer_packages(desk, given.uid, given.words)
    elif command == "connect":
        commands.offer_connection(desk, given.uid, given.url, given.as_is)
    elif command == "settings":
        commands.offer_settings(desk, given.uid, _settings(given))
    elif command == "withdraw":
        commands.withdraw_offers(desk, given.uid)
    elif command == "restart":
        _restart(given, desk)
    elif command == "forget" and given.left:
        commands.forget_left(desk, given.yes, given.dry_run)
    elif command == "forget" and given.dry_run:
        raise WordsRefused("--dry-run goes with --left")
    elif command == "forget":
        commands.forget_agent(desk, given.uid)
    else:
        commands.stop_server(desk, given.yes)


STEERED = {"halt": "is halted", "resume": "goes on", "finish": "is taken away"}


def _rollout(given: argparse.Namespace, desk: Desk) -> None:
    ids = [rollouts.rollout_id(name) for name in (given.id if isinstance(given.id, list) else [given.id])]
    watch = getattr(given, "watch", False)
    if getattr(given, "seconds", 0) and not watch:
        raise WordsRefused("--seconds goes with --watch")
    if given.deed == "begin":
        rollouts.begin_rollout(desk, _plan(given), given.yes, given.dry_run)
        watch = watch and not given.dry_run
    elif given.deed == "members":
        rollouts.list_members(desk, given.id, given.only, given.form)
    elif given.deed != "list":
        rollouts.steer_rollout(desk, given.deed, given.id, STEERED[given.deed])
    elif not watch:
        rollouts.list_rollouts(desk, ids, given.json)
    elif given.json:
        raise WordsRefused("--watch and --json exclude each other")
    if watch:
        rollouts.follow_rollouts(desk, ids, given.seconds)


def _plan(given: argparse.Namespace) -> rollouts.Plan:
    if len(given.where) > 1:
        raise WordsRefused("a rollout takes one --where")
    width, allowed = given.terms
    return rollouts.Plan(given.id, width, allowed, _offered(given, given.files), next(iter(given.where), None))


def _apply(given: argparse.Namespace, desk: Desk) -> None:
    with closing(_source(given, watches=given.watch or bool(given.wait))) as source:
        if given.watch:
            applying.apply_watching(desk, source, given.every, given.yes)
        elif given.wait:
            applying.apply_waiting(desk, source, given.every, given.yes, given.wait)
        else:
            applying.apply_once(desk, source, given.dry_run, given.yes)


def _wanted_state(given: argparse.Namespace, desk: Desk) -> None:
    if given.deed == "check":
        applying.show_table(desk, _source(given).read())
    elif given.deed == "status":
        applying.show_status(desk, _source(given), given.json)
    elif given.deed == "diff" and given.agent:
        applying.show_agents_difference(desk, _source(given), given.agent)
    elif given.deed == "diff":
        applying.show_difference(desk, _source(given))
    elif given.deed == "edit":
        stored.edit_wanted(desk, _etcd(given), given.path)
    elif given.deed == "put":
        stored.put_wanted(desk, _etcd(given), Folder(given.folder), given.yes)
    else:
        stored.get_wanted(desk, _etcd(given), given.folder)


def _source(given: argparse.Namespace, watches: bool = False) -> Source:
    if bool(given.folder) == bool(given.etcd):
        raise WordsRefused("the wanted state is that of a FOLDER, or of --etcd URL")
    if given.folder:
        return Folder(given.folder)
    return EtcdSource(_etcd(given), watches)


def _etcd(given: argparse.Namespace) -> Etcd:
    if not given.etcd or not given.prefix:
        raise WordsRefused("etcd is reached by --etcd URL, and its keys have a beginning")
    return Etcd([Member.read(url) for url in given.etcd], given.prefix, given.timeout, Trust(given.etcd_authority, given.etcd_certificate, given.etcd_key))


def _listing(given: argparse.Namespace) -> Listing:
    if given.brief and given.where:
        raise WordsRefused("--where looks at attributes, which --brief doesn't ask for")
    if given.brief and given.sort not in BRIEF_SORTS:
        raise WordsRefused(f"--sort {given.sort} looks at what --brief doesn't ask for")
    return Listing(given.brief, tuple(given.where), given.health, given.sort, given.state, given.older)


def _config(given: argparse.Namespace, desk: Desk) -> None:
    many = given.all or bool(given.where)
    if given.all and given.where:
        raise WordsRefused("--all and --where exclude each other")
    if given.dry_run and not many:
        raise WordsRefused("--dry-run goes with --all or --where")
    files = given.words if many else given.words[1:]
    if not files:
        raise WordsRefused("config takes UID and FILE; or --all or --where and FILE")
    config = _offered(given, files)
    if many:
        commands.offer_config_to_many(desk, config, given.where, given.yes, given.dry_run)
    else:
        commands.offer_config(desk, given.words[0], config)


def _offered(given: argparse.Namespace, files: Sequence[str]) -> OfferedConfig:
    """The files as they are offered."""
    if len(files) > 1 and given.name:
        raise WordsRefused("--name goes with one FILE")
    config = OfferedConfig(tuple(OfferedFile.read(path, given.name, given.type) for path in files))
    if len({file.name for file in config.files}) < len(files):
        raise WordsRefused("two files have one name: an agent has a file under each name")
    return config


def _restart(given: argparse.Namespace, desk: Desk) -> None:
    if given.each:
        commands.restart_each(desk, given.uid, given.yes, given.dry_run)
    elif given.dry_run:
        raise WordsRefused("--dry-run goes with --each")
    else:
        commands.restart_agent(desk, given.uid)


def _settings(given: argparse.Namespace) -> OfferedSettings:
    url = given.url if given.as_is or not given.url else endpoint(given.url)
    return OfferedSettings(url, given.seconds, tuple(given.header))


def _wanted(given: argparse.Namespace) -> Wanted:
    if given.file and given.what != "applied" or given.hash and given.what not in ("applied", "installed"):
        raise WordsRefused("--file goes with applied, --hash with applied or installed")
    if given.file:
        if len(given.file) > 1 and given.name:
            raise WordsRefused("--name goes with one --file")
        files = tuple(OfferedFile.read(path, given.name, given.type) for path in given.file)
        return Wanted(given.what, OfferedConfig(files).hash())
    return Wanted(given.what, given.hash.lower())
