"""Servers and agents that are played by the rules of docs/PROTOCOL.md: offers stand where they were taken, and go out until an agent names their hash."""
import threading

from scripted import UNKNOWN, WORDS, ScriptedServer
from gisavelom_operator.offers import OfferedConfig, OfferedFile

APPLIED, APPLYING, FAILED = 1, 2, 3
ACCEPTS, TELLS_FILES, TELLS_STATUS = 0x2, 0x4, 0x1000


def uid_of(number):
    """The identifier of the agent of this number; they ascend as the numbers do."""
    return f"{number:08x}-0000-4000-8000-000000000000"


class PlayedAgent:
    """Its reports are whole. It applies what it is offered, unless it refuses a content or takes its time."""

    def __init__(self, number, capabilities=ACCEPTS | TELLS_FILES | TELLS_STATUS, **attributes):
        self.uid, self.capabilities, self.attributes = uid_of(number), capabilities, attributes
        self.number, self.presence, self.health = 0, "here", "healthy"
        self.files, self.remote = {}, ("", 0, "")
        self.refuses, self.is_slow, self.is_ill = None, False, None
        self.had = []  # the hashes that it was offered

    def report(self, server):
        """A report to the server, and what its reply offers."""
        self.number += 1
        offer = server.take(self)
        if offer is None:
            return
        self.had.append(offer.hash())
        files = {file.name: file.body for file in offer.files}
        if self.refuses in files.values():
            self.remote = offer.hash(), FAILED, "bad \x1b words"
        elif self.is_slow:
            self.remote = offer.hash(), APPLYING, ""
        else:
            self.files, self.remote = files, (offer.hash(), APPLIED, "")
            self.health = "unhealthy" if self.is_ill in files.values() else "healthy"

    def text(self):
        told = [f"instance_uid = hex {self.uid.replace('-', '')}", f"sequence_num = {self.number}"]
        for at, (key, value) in enumerate(self.attributes.items()):
            front = f"agent_description.identifying_attributes[{at}]"
            told += [f'{front}.key = "{key}"', f'{front}.value.string_value = "{value}"']
        told += ["agent_description = {}"] if not self.attributes else []
        told.append(f"capabilities = {self.capabilities}")
        if self.capabilities & TELLS_FILES:
            told += [f'effective_config.config_map.config_map["{name}"].body = hex {body.hex()}' for name, body in self.files.items()]
        if self.capabilities & TELLS_STATUS:
            offered, status, error = self.remote
            told += [f"remote_config_status.last_remote_config_hash = hex {offered}"] if offered else []
            told += [f"remote_config_status.status = {status}"] if status else ["remote_config_status = {}"]
            told += ['remote_config_status.error_message = "' + error.replace("\x1b", "\\x1b") + '"'] if error else []
        return "".join(line + "\n" for line in [*told, "end"])


class PlayedServer(ScriptedServer):
    """What it knows of an agent is what the agent told it last."""

    def __init__(self):
        self.lock = threading.Lock()
        self.records, self.standing, self.others = {}, {}, {}
        self.refusal = ""   # in place of taking a configuration
        self.ends_at = None  # the number of the order `config` at which its connection ends
        self.orders = 0
        super().__init__({})

    def take(self, agent):
        """Takes a report, and gives what stands for the agent and isn't named by it."""
        with self.lock:
            named = agent.remote[0] if agent.capabilities & TELLS_STATUS else ""
            self.records[agent.uid] = (agent.number, agent.presence, agent.health, agent.text(), named)
            offer = self.standing.get(agent.uid)
            return offer if offer and offer.hash() != named and agent.capabilities & ACCEPTS else None

    def answer(self, line):
        with self.lock:
            self.lines.append(line)
            verb, _, rest = line.partition(" ")
            if verb == "list":
                return "".join(f"{uid} {it[0]} {it[1]} {it[2]}\n" for uid, it in sorted(self.records.items())) + "end\n"
            uid, _, words = rest.partition(" ")
            if verb not in ("show", "waits", "config", "withdraw"):
                return WORDS
            if uid not in self.records:
                return UNKNOWN
            return getattr(self, verb)(uid, words)

    def show(self, uid, _):
        return self.records[uid][3]

    def waits(self, uid, _):
        offer = self.standing.get(uid)
        waiting = [f"config {offer.hash()}"] if offer and offer.hash() != self.records[uid][4] else []
        return "".join(line + "\n" for line in [*waiting, *self.others.get(uid, []), "end"])

    def config(self, uid, words):
        self.orders += 1
        if self.orders == self.ends_at:
            return None
        if self.refusal:
            return f"refused: {self.refusal}\n"
        told = words.split(" ")
        files = [OfferedFile.of(name, kind, bytes.fromhex(body.strip("-"))) for name, kind, body in zip(told[::3], told[1::3], told[2::3])]
        self.standing[uid] = OfferedConfig(tuple(files))
        return "ok\n"

    def withdraw(self, uid, _):
        self.standing.pop(uid, None)
        self.others.pop(uid, None)
        return "ok\n"

    def ordered(self):
        """Whom it was told to offer a configuration since this was asked last, in order."""
        found = [line.split()[1] for line in self.lines if line.startswith("config ")]
        self.lines.clear()
        return found

    def withdrawn(self):
        return [line.split()[1] for line in self.lines if line.startswith("withdraw ")]
