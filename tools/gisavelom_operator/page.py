"""A page for a browser on this machine: the fleet, an agent, and a form that offers a configuration.

It listens on the loopback address alone. What agents told goes out as JSON, and the page's scripts put it into the document as
text, so that no word of an agent's is ever read as HTML; the Content-Security-Policy forbids all scripts but the page's own.
A request has to name the page's own host, so that another name that leads to this machine is no way in; the form needs the
page's own origin and a token that only the page has.
"""
from __future__ import annotations

import base64
import binascii
import json
import secrets
import time
from contextlib import closing
from http import HTTPStatus
from http.server import BaseHTTPRequestHandler, ThreadingHTTPServer
from pathlib import Path
from typing import Callable, Dict, List, Mapping, Optional, Tuple
from urllib.parse import parse_qsl, unquote

from .agents import ACCEPTS_REMOTE_CONFIG, details_of
from .commands import Desk, need_signs
from .fleet import Agent, Fleet, Told, Watch, joined
from .lines import FATES, Address, Rollout
from .offers import OfferedConfig, OfferedFile, config_outcome
from .problems import NoServer, NoSuchAgent, NoSuchRollout, NotHere, NotUnderstood, Problem, Refused, SeveralAgents, WordsRefused, reason
from .tables import age_sentence, age_words, details_json, while_of

LOOPBACK = "127.0.0.1"
FIRST_LOOK = 5.0           # seconds that a first page waits for servers
ROWS = 200                 # of the table that are sent at a time, unless more are asked for
MOST_ROWS = 5_000
LARGEST_FORM = 4_194_304   # bytes
LONGEST_BODY = 262_144     # characters of a file of the effective configuration that are sent

STATIC = Path(__file__).parent / "static"
KINDS = {".html": "text/html; charset=utf-8", ".css": "text/css; charset=utf-8", ".js": "text/javascript; charset=utf-8"}
TOKEN_PLACE = "{{token}}"

HEADERS = {
    "Content-Security-Policy": "default-src 'none'; script-src 'self'; style-src 'self'; connect-src 'self'; form-action 'none'; "
                               "base-uri 'none'; frame-ancestors 'none'; require-trusted-types-for 'script'; trusted-types 'none'",
    "X-Content-Type-Options": "nosniff",
    "X-Frame-Options": "DENY",
    "Referrer-Policy": "no-referrer",
    "Cross-Origin-Opener-Policy": "same-origin",
    "Cross-Origin-Resource-Policy": "same-origin",
    "Cache-Control": "no-store",
}
STATUSES = {
    WordsRefused: HTTPStatus.BAD_REQUEST,
    NoSuchAgent: HTTPStatus.NOT_FOUND,
    NoSuchRollout: HTTPStatus.NOT_FOUND,
    SeveralAgents: HTTPStatus.CONFLICT,
    Refused: HTTPStatus.CONFLICT,
    NoServer: HTTPStatus.BAD_GATEWAY,
    NotUnderstood: HTTPStatus.BAD_GATEWAY,
}


def row(agent: Agent, silent: str = "") -> Dict[str, str]:
    """The cells of the fleet's table, and for how long its server has been silent. Numbers are texts, since a browser's numbers don't
    hold all of 64 bits."""
    summary = agent.summary
    return {
        "uid": agent.uid,
        "silent": silent,
        "unheard": while_of(time.monotonic() - agent.since),
        "host": summary.attribute("host.name") if summary else "",
        "service": summary.attribute("service.name") if summary else "",
        "version": summary.attribute("service.version") if summary else "",
        "state": agent.listed.presence,
        "health": agent.listed.health,
        "number": str(agent.listed.number),
        "age": age_words(agent.age),
        "configuration": summary.config.state if summary else "?",
        "packages": summary.packages.words() if summary else "?",
        "server": str(agent.server),
    }


def rollout_row(server: Address, rollout: Rollout, silent: str = "") -> Dict[str, object]:
    """A rollout, and for how long its server has been silent."""
    counts = {"waiting": rollout.waiting, "offered": rollout.offered, "applied": rollout.applied, "failed": rollout.failed}
    return {"id": rollout.id, "server": str(server), "state": rollout.state, "silent": silent, **counts}


def member_row(uid: str, fate: str, agent: Optional[Agent]) -> Dict[str, str]:
    """An agent of a rollout: what became of the offer there, and what else is known of it."""
    names = ("host", "service", "state", "health", "age", "configuration")
    cells = row(agent) if agent else dict.fromkeys(names, "")
    error = agent.summary.config.error if agent and agent.summary else ""
    return {"uid": uid, "offer": fate, "error": error, **{name: cells[name] for name in names}}


WHOLE = ("healthy", "unhealthy", "unknown", "here", "left")  # words that are searched for whole


def is_found(agent: Agent, words: List[str]) -> bool:
    """Whether each of the words, in lower case, is in a cell or an attribute of the agent. One of state or health, and KEY=VALUE, is a
    whole one."""
    if not words:
        return True
    cells = row(agent)
    del cells["unheard"], cells["age"]
    attributes: List[str] = []
    if agent.summary:
        attributes = [f"{key}={value}".lower() for key, value in {**agent.summary.identifying, **agent.summary.others}.items()]
    exact = {cells.pop("state"), cells.pop("health")}
    text = "\n".join([*cells.values(), *attributes, agent.summary.config.error if agent.summary else ""]).lower()
    return all(word in exact if word in WHOLE else word in attributes if "=" in word else word in text for word in words)


def sorting(column: str) -> Callable[[Agent], Tuple[object, ...]]:
    """The order of the table by a column, and by identifiers within it."""
    if column == "number":
        return lambda agent: (agent.listed.number, agent.uid)
    if column == "unheard":
        return lambda agent: (-agent.since, agent.uid)
    if column == "age":
        return lambda agent: (agent.age.seconds if agent.age else -1, agent.uid)
    if column not in ("uid", "host", "service", "version", "state", "health", "configuration", "packages", "server"):
        raise WordsRefused("there is no such column")
    return lambda agent: (row(agent)[column].lower(), agent.uid)


def whole_number(given: Mapping[str, str], name: str, default: int, most: int) -> int:
    """A number of the address's query."""
    told = given.get(name, str(default))
    if not told.isascii() or not told.isdigit() or len(told) > 9:
        raise WordsRefused(f"{name} isn't a number")
    return min(int(told), most)


class Page:
    """What the page tells and does, apart from HTTP. Its calls may come from several threads."""

    def __init__(self, fleet: Fleet) -> None:
        self._watches = {address: Watch(fleet.another_session(address)) for address in fleet.servers}
        self._another = fleet.another_session

    def fleet(self, given: Mapping[str, str]) -> Dict[str, object]:
        """The rows that are searched for, in the order asked for, and the fleet's counts."""
        told = self._told()
        view, ages = joined(told), _ages(told)
        found = [agent for agent in view.agents if is_found(agent, given.get("search", "").lower().split())]
        found.sort(key=sorting(given.get("sort", "uid")), reverse=given.get("order") == "down")
        first = whole_number(given, "from", 0, 10 ** 9)
        count = whole_number(given, "count", ROWS, MOST_ROWS)
        here = [agent for agent in view.agents if agent.is_here]
        return {
            "rows": [row(agent, ages.get(agent.server, "")) for agent in found[first:first + count]],
            "found": len(found),
            "from": first,
            "agents": len(view.agents),
            "here": len(here),
            "unhealthy": sum(agent.listed.health == "unhealthy" for agent in here),
            "failed": sum(bool(agent.summary and agent.summary.config.state == "failed") for agent in view.agents),
            "servers": [str(address) for address in view.servers],
            "ages": all(each.has_ages for each in told.values()),
            "rollouts": [rollout_row(address, rollout, ages.get(address, "")) for address, each in told.items() for rollout in each.rollouts],
            "problems": [str(why) for _, why in view.silent],
        }

    def rollout(self, server: str, name: str, given: Mapping[str, str]) -> Dict[str, object]:
        """A rollout at a server, and its agents in the order of joining; of one fate alone where that is given."""
        told = self._told()
        address = next((address for address in told if str(address) == server), None)
        if address is None:
            raise NoSuchRollout(f"this page has no server at {server}")
        with closing(self._another(address)) as session:
            rollout = next((rollout for rollout in session.rollouts() if rollout.id == name), None)
            if rollout is None:
                raise NoSuchRollout(f"there is no rollout {name} at {server}: it was finished, or the server began anew")
            members = session.members(name)
        fate = given.get("offer", "")
        if fate and fate not in FATES:
            raise WordsRefused("there is no such offer")
        view = joined(told)
        found = [member for member in members if fate in ("", member.fate)]
        first = whole_number(given, "from", 0, 10 ** 9)
        agents = {agent.uid: agent for agent in view.agents}
        return {
            **rollout_row(address, rollout),
            "rows": [member_row(*member, agents.get(member.uid)) for member in found[first:first + whole_number(given, "count", ROWS, MOST_ROWS)]],
            "found": len(found),
            "from": first,
            "problems": [str(why) for _, why in view.silent],
        }

    def agent(self, uid: str, given: Mapping[str, str]) -> Dict[str, object]:
        """All that is known of an agent, and what became of the offer whose hash is given."""
        agent = joined(self._told()).found(uid)
        with closing(self._another(agent.server)) as session:
            details = details_of(session.show(agent.uid))
        config = details.summary.config
        return {
            **details_json(agent, details, LONGEST_BODY),
            "number": str(agent.listed.number),
            "age": age_sentence(agent.age),
            "takes_configurations": details.summary.has(ACCEPTS_REMOTE_CONFIG),
            "offer": config_outcome(config, given["offer"]) if given.get("offer") else "",
        }

    def offer(self, told: Mapping[str, object]) -> Dict[str, object]:
        """Offers an agent a configuration of one file, whose content is given in base64."""
        texts = {name: told.get(name, "") for name in ("uid", "name", "type", "content")}
        if not all(isinstance(text, str) for text in texts.values()):
            raise WordsRefused("the form's fields are texts")
        try:
            body = base64.b64decode(str(texts["content"]), validate=True)
        except (binascii.Error, ValueError):
            raise WordsRefused("the content isn't base64") from None
        config = OfferedConfig((OfferedFile.of(str(texts["name"]), str(texts["type"]), body),))
        need_signs(str(texts["uid"]))
        agent = joined(self._told()).found(str(texts["uid"]))
        with closing(self._another(agent.server)) as session:
            session.order(f"config {agent.uid} {config.words()}")
        return {"hash": config.hash(), "server": str(agent.server)}

    def _told(self) -> Dict[Address, Told]:
        """What the servers told last."""
        for watch in self._watches.values():
            watch.wake()
        end = time.monotonic() + FIRST_LOOK
        for watch in self._watches.values():
            watch.wait_for_a_look(max(0.0, end - time.monotonic()))
        return {address: watch.told() for address, watch in self._watches.items()}


def _ages(told: Mapping[Address, Told]) -> Dict[Address, str]:
    """Of each silent server how many seconds ago it told something."""
    now = time.monotonic()
    return {address: str(int(now - each.heard)) for address, each in told.items() if each.why and each.heard is not None}


class PageServer(ThreadingHTTPServer):
    """Listens on the loopback address for browsers of this machine."""

    daemon_threads = True
    request_queue_size = 64

    def __init__(self, page: Page, port: int) -> None:
        super().__init__((LOOPBACK, port), Handler)
        self.page = page
        self.token = secrets.token_urlsafe(32)

    @property
    def hosts(self) -> Tuple[str, ...]:
        """The hosts that a request may name."""
        return tuple(f"{name}:{self.server_port}" for name in (LOOPBACK, "localhost"))


class Handler(BaseHTTPRequestHandler):
    """One connection of a browser."""

    server: PageServer
    protocol_version = "HTTP/1.1"
    server_version = "operator"
    sys_version = ""
    timeout = 60

    def do_GET(self) -> None:
        """Pages, their scripts and style, and what they show."""
        if not self._names_this_host():
            return
        path, _, query = self.path.partition("?")
        given = dict(parse_qsl(query))
        words = [unquote(word) for word in path.split("/")[1:]]
        if words == [""]:
            self._file("fleet.html")
        elif words in (["page.css"], ["page.js"], ["fleet.js"], ["agent.js"], ["rollout.js"]):
            self._file(words[0])
        elif len(words) == 3 and words[0] == "rollout":
            self._file("rollout.html")
        elif len(words) == 4 and words[:2] == ["data", "rollout"]:
            self._tell(lambda: self.server.page.rollout(words[2], words[3], given))
        elif len(words) == 2 and words[0] == "agent":
            self._file("agent.html")
        elif words == ["data", "fleet"]:
            self._tell(lambda: self.server.page.fleet(given))
        elif len(words) == 3 and words[:2] == ["data", "agent"]:
            self._tell(lambda: self.server.page.agent(words[2], given))
        else:
            self._answer_json(HTTPStatus.NOT_FOUND, {"problem": "there is no such page"})

    def do_POST(self) -> None:
        """The form. Where it isn't taken the connection ends, since its body isn't read."""
        self.close_connection = True
        if not self._names_this_host():
            return
        host = self.headers.get("Host", "")
        size = self.headers.get("Content-Length", "")
        if self.path != "/data/config":
            self._answer_json(HTTPStatus.NOT_FOUND, {"problem": "there is no such form"})
        elif self.headers.get_all("Origin") != [f"http://{host}"]:
            self._answer_json(HTTPStatus.FORBIDDEN, {"problem": "the form was sent by another page"})
        elif not secrets.compare_digest(self.headers.get("X-Operator-Token", "").encode(), self.server.token.encode()):
            self._answer_json(HTTPStatus.FORBIDDEN, {"problem": "the form lacks this page's token: load the page again"})
        elif self.headers.get("Content-Type") != "application/json":
            self._answer_json(HTTPStatus.UNSUPPORTED_MEDIA_TYPE, {"problem": "the form isn't application/json"})
        elif not size.isascii() or not size.isdigit() or len(size) > 9 or int(size) > LARGEST_FORM:
            problem = f"the form has no length, or more than {LARGEST_FORM:,} bytes"
            self._answer_json(HTTPStatus.REQUEST_ENTITY_TOO_LARGE, {"problem": problem})
        else:
            self._tell(lambda: self.server.page.offer(_fields(self.rfile.read(int(size)))))

    def log_message(self, format: str, *args: object) -> None:
        """Nothing is written for each request."""

    def _names_this_host(self) -> bool:
        if self.headers.get_all("Host", []) in [[host] for host in self.server.hosts]:
            return True
        self._answer_json(HTTPStatus.MISDIRECTED_REQUEST, {"problem": "the page is reached by its own address alone"})
        return False

    def _tell(self, ask: Callable[[], Dict[str, object]]) -> None:
        try:
            status, told = HTTPStatus.OK, ask()
        except Problem as problem:
            status, told = STATUSES.get(type(problem), HTTPStatus.BAD_GATEWAY), {"problem": str(problem)}
        self._answer_json(status, told)

    def _file(self, name: str) -> None:
        path = STATIC / name
        content = path.read_text(encoding="utf-8").replace(TOKEN_PLACE, self.server.token)
        self._answer(HTTPStatus.OK, KINDS[path.suffix], content.encode())

    def _answer_json(self, status: HTTPStatus, told: Mapping[str, object]) -> None:
        self._answer(status, "application/json", json.dumps(told).encode())

    def _answer(self, status: HTTPStatus, kind: str, content: bytes) -> None:
        self.send_response(status)
        for name, value in {**HEADERS, "Content-Type": kind, "Content-Length": str(len(content))}.items():
            self.send_header(name, value)
        if self.close_connection:
            self.send_header("Connection", "close")
        self.end_headers()
        self.wfile.write(content)


def _fields(body: bytes) -> Mapping[str, object]:
    """The form's fields."""
    try:
        told = json.loads(body)
    except ValueError:
        told = None
    if not isinstance(told, dict):
        raise WordsRefused("the form isn't a JSON object")
    return told


def serve_page(desk: Desk, port: int) -> None:
    """Serves the page until the operator breaks it off."""
    desk.look()
    try:
        server = PageServer(Page(desk.fleet), port)
    except OSError as why:
        raise NotHere(f"the page can't be served at {LOOPBACK}:{port}: {reason(why)}") from None
    with server:
        desk.say(f"the fleet is shown at http://{LOOPBACK}:{server.server_port}/ until this program is broken off (Ctrl-C)")
        server.serve_forever()
