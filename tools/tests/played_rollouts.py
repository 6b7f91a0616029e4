"""A played server with rollouts, by docs/PROTOCOL.md ("Rollouts", "Operator lines"): its answers are made here, and not by what is tested."""
import re

from played_fleet import ACCEPTS, APPLIED, FAILED, TELLS_STATUS, PlayedServer
from scripted import UNKNOWN, WORDS
from gisavelom_operator.offers import OfferedConfig, OfferedFile

ID = re.compile("[A-Za-z0-9_-]{1,64}")
TERMS = re.compile("([0-9]{1,20})/([0-9]{1,20})")
NO_ROLLOUT = "refused: no rollout\n"


class Waves:
    """A rollout: the agents in the order of joining, each with its fate."""

    def __init__(self, width, allowed, finder, config):
        self.width, self.allowed, self.finder, self.config = width, allowed, finder, config
        self.fates, self.excused, self.is_halted = {}, set(), False

    def count(self, fate):
        return sum(each == fate for each in self.fates.values())

    def failed(self):
        """Those that count against the width and the halt."""
        return sum(fate == "failed" and uid not in self.excused for uid, fate in self.fates.items())

    def line(self, name):
        counts = " ".join(f"{fate} {self.count(fate)}" for fate in ("waiting", "offered", "applied", "failed"))
        return f"{name} {counts}{' halted' if self.is_halted else ''}\n"


class RollingServer(PlayedServer):
    def __init__(self):
        self.rolling, self.agents = {}, {}
        super().__init__()

    def take(self, agent):
        offer = super().take(agent)
        with self.lock:
            self.agents[agent.uid] = (agent.capabilities, dict(agent.attributes), agent.remote, agent.health, agent.presence)
            for waves in self.rolling.values():
                self._join(waves, agent.uid)
            self._points()
        return offer

    def answer(self, line):
        words = line.split(" ")
        act = {"rollout": self.rollout, "rollouts": self.rollouts, "members": self.members, "halt": self.halt, "resume": self.resume, "finish": self.finish,
               "forget": self.forget}.get(words[0])
        if act is None:
            return super().answer(line)
        with self.lock:
            self.lines.append(line)
            answer = WORDS if not all(words) else act(words[1:])
            self._points()
            return answer

    def rollout(self, words):
        terms = TERMS.fullmatch(words[1]) if len(words) > 1 else None
        if not terms or not ID.fullmatch(words[0]) or not int(terms[2]) < int(terms[1]) < 2 ** 64:
            return WORDS
        files, finder = words[2:], None
        if files[:1] == ["where"]:
            if len(files) < 2 or files[1].find("=") < 1:
                return WORDS
            finder, files = tuple(files[1].split("=", 1)), files[2:]
        if not files or len(files) % 3:
            return WORDS
        if words[0] in self.rolling:
            return "refused: rollout there\n"
        if len(self.rolling) == 16:
            return "refused: too many rollouts\n"
        told = [OfferedFile.of(name, kind, bytes.fromhex(body.strip("-"))) for name, kind, body in zip(files[::3], files[1::3], files[2::3])]
        waves = self.rolling[words[0]] = Waves(int(terms[1]), int(terms[2]), finder, OfferedConfig(tuple(told)))
        for uid in sorted(self.agents):
            self._join(waves, uid)
        return "ok\n"

    def rollouts(self, words):
        return WORDS if words else "".join(waves.line(name) for name, waves in self.rolling.items()) + "end\n"

    def members(self, words):
        waves, refusal = self._named(words)
        return refusal or "".join(f"{uid} {fate}\n" for uid, fate in waves.fates.items()) + "end\n"

    def halt(self, words):
        waves, refusal = self._named(words)
        if not refusal:
            waves.is_halted = True
        return refusal or "ok\n"

    def resume(self, words):
        waves, refusal = self._named(words)
        if not refusal:
            waves.is_halted = False
            waves.excused |= {uid for uid, fate in waves.fates.items() if fate == "failed"}
        return refusal or "ok\n"

    def finish(self, words):
        _, refusal = self._named(words)
        if not refusal:
            del self.rolling[words[0]]
        return refusal or "ok\n"

    def forget(self, words):
        if words == ["left"]:
            for uid in [uid for uid, it in self.records.items() if it[1] == "left"]:
                self._forget(uid)
            return "ok\n"
        if len(words) != 1:
            return WORDS
        if words[0] not in self.records:
            return UNKNOWN
        self._forget(words[0])
        return "ok\n"

    def _named(self, words):
        if len(words) != 1 or not ID.fullmatch(words[0]):
            return None, WORDS
        return self.rolling.get(words[0]), "" if words[0] in self.rolling else NO_ROLLOUT

    def _forget(self, uid):
        for held in (self.records, self.agents, self.standing, self.others, *(waves.fates for waves in self.rolling.values())):
            held.pop(uid, None)

    def _join(self, waves, uid):
        capabilities, attributes, _, _, presence = self.agents[uid]
        is_found = not waves.finder or attributes.get(waves.finder[0]) == waves.finder[1]
        if uid not in waves.fates and presence == "here" and is_found and capabilities & ACCEPTS and capabilities & TELLS_STATUS:
            waves.fates[uid] = "waiting"

    def _points(self):
        for waves in self.rolling.values():
            for uid in [uid for uid, fate in waves.fates.items() if fate == "offered"]:
                _, _, (named, status, _), health, _ = self.agents[uid]
                if named == waves.config.hash() and status in (APPLIED, FAILED):
                    waves.fates[uid] = "applied" if status == APPLIED and health == "healthy" else "failed"
            waves.is_halted |= waves.failed() > waves.allowed
            room = 0 if waves.is_halted else waves.width - waves.count("offered") - waves.failed()
            for uid in [uid for uid, fate in waves.fates.items() if fate == "waiting"][:max(0, room)]:
                waves.fates[uid] = "offered"
                self.standing[uid] = waves.config
