#!/usr/bin/env python3
"""Tries tools/operator on the real server: tools/tests/serve_trial.py PROGRAM [AGENTS]

PROGRAM is the built program (crates/opamp_cli/out/opamp_cli). Two servers are started at free ports of the loopback address,
AGENTS agents (100) are played over HTTP, and each command is run as an operator runs it. What was done is printed, with how long
it took; the first thing that isn't as it should be ends the trial with status 1. It is run by hand.
"""
import http.client
import json
import os
import subprocess
import sys
import tempfile
import time
import uuid

TOP = os.path.dirname(os.path.dirname(os.path.dirname(os.path.abspath(__file__))))
sys.dont_write_bytecode = True
sys.path.insert(0, os.path.join(TOP, "bench"))
from opamp_wire import Running, block, config_map, connected, field, fields, files_of, free_ports, number, part

OPERATOR = [sys.executable, "-B", os.path.join(TOP, "tools", "operator")]
# AgentCapabilities: status, remote and effective configuration, packages and their statuses, connection, restart, health, remote status
CAPABILITIES = 0x1 | 0x2 | 0x4 | 0x8 | 0x10 | 0x100 | 0x400 | 0x800 | 0x1000
SCRIPT = "<script>alert(1)</script>"


def attribute(field_number, key, value):
    return block(field_number, block(1, key.encode()) + block(2, block(1, value.encode())))


class Wide:
    """An agent that reports once, 1,500,000 absent values of some 84 bytes each in its text: above what a server lets wait."""

    def __init__(self):
        self.uid = uuid.UUID(int=1 << 127)

    def report(self):
        description = block(1, block(1, b"wide") + block(2, block(5, block(1, b"") * 1_500_000)))
        return block(1, self.uid.bytes) + number(2, 1) + block(3, description) + number(4, 1)

    def hear(self, reply):
        pass


class Player:
    """An agent. Every report of it is whole; it applies each configuration but those whose file's name begins with `bad`."""

    def __init__(self, index):
        self.uid = uuid.UUID(int=index + 1 << 96 | index)
        self.name = SCRIPT if index == 0 else f"service-{index % 4}"
        self.number = 0
        self.is_healthy = index % 10 != 9
        self.files, self.remote, self.packages = {}, b"", b""
        self.restarts, self.endpoints = 0, []

    def report(self):
        self.number += 1
        health = number(1, 1) if self.is_healthy else block(3, b"disk full")
        return b"".join([
            block(1, self.uid.bytes), number(2, self.number),
            block(3, attribute(1, "service.name", self.name) + attribute(1, "service.version", "1.2")),
            number(4, CAPABILITIES), block(5, health), block(6, block(1, config_map(self.files))), block(7, self.remote), block(8, self.packages),
        ])

    def hear(self, reply):
        """Takes what a ServerToAgent offers: 3 remote_config, 4 connection_settings, 5 packages_available, 9 command."""
        numbers = {found for found, _ in fields(reply)}
        if 3 in numbers:
            offer = part(reply, 3)
            files, offered = files_of(part(offer, 1)), block(1, field(offer, 2))
            if any(name.startswith("bad") for name in files):
                self.remote = offered + number(2, 3) + block(3, b"bad name")
            else:
                self.files, self.remote = files, offered + number(2, 1)
        if 4 in numbers:
            self.endpoints.append(field(part(part(reply, 4), 2), 1).decode())
        if 5 in numbers:
            offer = part(reply, 5)
            entries = [(field(entry, 1), part(entry, 2)) for found, entry in fields(offer) if found == 1]
            statuses = {name: block(1, name) + block(2, field(each, 2)) + block(3, field(each, 4)) for name, each in entries}
            told = (block(1, block(1, name) + block(2, status)) for name, status in sorted(statuses.items()))
            self.packages = b"".join(told) + block(2, field(offer, 2))
        if 9 in numbers:
            self.restarts += 1


class Server:
    """A server that runs, and a connection on which agents report to it."""

    def __init__(self, program, folder):
        self.http, ws, self.operator = free_ports(3)
        words = [program, "serve"]
        for option, port in (("--http", self.http), ("--ws", ws), ("--operator", self.operator)):
            words += [option, f"127.0.0.1:{port}"]
        self.running = Running(words, folder)
        connected(self.operator, 60).close()

    def take(self, players):
        """Has each report once, and hear the reply."""
        connection = http.client.HTTPConnection("127.0.0.1", self.http, timeout=60)
        for player in players:
            connection.request("POST", "/v1/opamp", player.report(), {"Content-Type": "application/x-protobuf"})
            answer = connection.getresponse()
            reply = answer.read()
            want(answer.status, 200, "the status of a reply")
            player.hear(reply)
        connection.close()


class Ran:
    """tools/operator, run with the servers and words; what it wrote, how it ended and how long it took."""

    def __init__(self, servers, *words):
        self.words = words
        front = [word for server in servers for word in ("--server", f"127.0.0.1:{server.operator}")]
        self.began = time.monotonic()
        self.process = subprocess.Popen([*OPERATOR, "--timeout", "120", *front, *words], stdout=subprocess.PIPE, stderr=subprocess.PIPE, text=True)

    def end(self, status=0):
        """What it wrote, where it ends with this status."""
        out, err = self.process.communicate(timeout=600)
        took, words = time.monotonic() - self.began, " ".join(self.words)[:100]
        print(f"{took:7.2f} s  operator {words}: status {self.process.returncode} {err.strip()[:160]}", flush=True)
        want(self.process.returncode, status, f"the status of {self.words[0]}, which wrote {out[-300:]!r}")
        return out


def want(found, wanted, what):
    if found != wanted:
        sys.exit(f"{what} is {found!r} and not {wanted!r}")


def try_looking(server, players):
    table = Ran([server], "list").end().split("\n")
    want(len(table), len(players) + 2, "the number of lines")
    want(sum("unhealthy" in line for line in table), sum(not player.is_healthy for player in players), "the number of the unhealthy")
    Ran([server], "list", "--brief").end()
    told = json.loads(Ran([server], "list", "--json").end())
    want([agent["uid"] for agent in told], [str(player.uid) for player in players], "the identifiers")
    want([agent["service"]["name"] for agent in told], [player.name for player in players], "the names")
    lines = Ran([server], "show", "--lines", str(players[0].uid)).end().split("\n")
    want(lines[:2], [f"instance_uid = hex {players[0].uid.hex}", f"sequence_num = {players[0].number}"], "the text")
    want(SCRIPT in Ran([server], "show", str(players[0].uid)).end(), True, "that the name is shown")
    metrics = Ran([server], "metrics").end()
    healthy = sum(player.is_healthy for player in players)
    want(f'gisavelom_agents{{state="here",health="healthy"}} {healthy}\n' in metrics, True, "that metrics count the healthy")
    want({agent["connection"] for agent in told}, {"http"}, "how the last reports came")
    want(Ran([server], "list", "--older", "86400").end().count("\n"), 1, "the number of lines where no agent is silent")
    want(f'seconds="0"}} {len(players)}\n' in Ran([server], "metrics", "--older", "0").end(), True, "that metrics tell ages")
    counts, = json.loads(Ran([server], "count", "--json").end())
    wanted = {"agents": len(players), "here": len(players), "healthy": healthy, "reports": len(players), "orders": 0, "rollouts": 0}
    want({name: counts[name] for name in wanted}, wanted, "what the server counts")


def try_orders(server, players, folder):
    player, uid = players[1], str(players[1].uid)
    good, bad = os.path.join(folder, "agent.yaml"), os.path.join(folder, "bad.yaml")
    for path, content in ((good, b"k: v\n"), (bad, bytes(range(256)))):
        with open(path, "wb") as file:
            file.write(content)
    for path, status in ((good, 0), (bad, 8)):
        Ran([server], "config", uid, path).end()
        waiting = Ran([server], "wait", uid, "applied", "--file", path)
        time.sleep(2)
        want(waiting.process.poll(), None, "that wait still waits")
        server.take([player])
        server.take([player])
        waiting.end(status)
    want(player.files, {"agent.yaml": b"k: v\n"}, "the agent's files")
    out = Ran([server], "packages", uid, "tool", "1.2", "http://127.0.0.1:1/tool", good, "b", "2", "http://127.0.0.1:1/b", bad).end()
    server.take([player])
    server.take([player])
    Ran([server], "wait", uid, "installed", "--hash", out.split()[-1], "--seconds", "5").end()
    Ran([server], "connect", uid, "ws://127.0.0.1:1/v1/opamp").end()
    server.take([player])
    want(player.endpoints[-1:], ["ws://127.0.0.1:1/v1/opamp"], "the endpoint offered")
    Ran([server], "restart", uid).end()
    server.take([player])
    want(player.restarts, 1, "the number of restarts")
    out = Ran([server], "config", "--yes", "--where", "service.name=service-2", good).end()
    want(out.split("\n")[-2].split(",")[0], f"{sum(each.name == 'service-2' for each in players)} offered", "the summary")
    out = Ran([server], "config", "--yes", "--all", good).end()
    want(out.split("\n")[-2].split(",")[0], f"{len(players)} offered", "the summary")
    server.take(players)
    server.take(players)
    want(f'gisavelom_configurations{{status="applied"}} {len(players)}\n' in Ran([server], "metrics").end(), True, "that all applied it")


def followed(server, chosen, status, *words):
    """Begins a rollout and follows it, while its agents report; it ends with this status."""
    ran = Ran([server], "rollout", "begin", *words, "--yes", "--watch", "--seconds", "300")
    while ran.process.poll() is None:
        server.take(chosen)
    return ran.end(status)


def try_rollouts(server, players, folder):
    wave, bad = os.path.join(folder, "wave.yaml"), os.path.join(folder, "bad.yaml")
    with open(wave, "wb") as file:
        file.write(b"a: b\n")
    chosen = [player for player in players if player.name == "service-2"]
    out = followed(server, chosen, 0, "main", f"{max(2, len(chosen) // 4)}/0", wave, "--where", "service.name=service-2")
    want(out.strip().split("\n")[-1].split("  ", 1)[1], f"main waiting 0 offered 0 applied {len(chosen)} failed 0", "how far it is")
    want([player.files == {"wave.yaml": b"a: b\n"} for player in players], [player in chosen for player in players], "who has the file")
    others = [player for player in players if player.name == "service-1"]
    out = followed(server, others, 8, "bad", "3/1", bad, "--where", "service.name=service-1")
    want(out.strip().endswith(" halted"), True, "that it is halted")
    failed = sum(player.remote.endswith(number(2, 3) + block(3, b"bad name")) for player in others)
    want(2 <= failed <= 3, True, f"that two or three failed, of which there are {failed}")
    table = Ran([server], "rollout", "members", "bad", "--only", "failed").end().split("\n")
    want([line.split()[-2:] for line in table[1:-1]], [["bad", "name"]] * (len(table) - 2), "the errors")
    Ran([server], "rollout", "resume", "bad").end()
    Ran([server], "rollout", "halt", "bad").end()
    want([each["state"] for each in json.loads(Ran([server], "rollout", "list", "--json").end())], ["over", "halted"], "the states")
    Ran([server], "rollout", "begin", "bad", "1/0", wave, "--yes").end(4)
    for name in ("main", "bad"):
        Ran([server], "rollout", "finish", name).end()
    Ran([server], "rollout", "halt", "main").end(5)
    want(Ran([server], "rollout", "list").end(), "there is no rollout\n", "the rollouts")


def try_forgetting(server, players):
    uid = str(players[3].uid)
    Ran([server], "forget", uid).end()
    Ran([server], "show", uid).end(5)
    server.take([players[3], players[3]])
    Ran([server], "show", uid).end()
    Ran([server], "forget", "--left").end()
    Ran([server], "stop").end(11)


def try_errors(server, players, folder):
    large = os.path.join(folder, "large.yaml")
    for size in (1_048_577, 2_200_000):  # above what an offer may have; above what a line may have
        with open(large, "wb") as file:
            file.write(b"x" * size)
        Ran([server], "config", str(players[1].uid), large).end(4)
    Ran([server], "show", "ffff").end(5)
    Ran([server], "show", "0").end(6)
    Ran([server], "wait", str(players[1].uid), "left", "--seconds", "1").end(7)
    agents_port = Ran([server], "--server", f"127.0.0.1:{server.http}", "list")
    want(len(agents_port.end().split("\n")), len(players) + 2, "the number of lines")
    wide = Wide()
    server.take([wide])
    table = Ran([server], "list").end().split("\n")
    want([line.split()[1:3] for line in table if line.startswith(str(wide.uid))], [["?", "?"]], "the line of an agent that can't be shown")
    want(sum("service-1" in line for line in table), sum(each.name == "service-1" for each in players), "the lines of the others")


def try_several(first, second, players):
    moved = players[2]
    second.take([moved, moved])
    table = json.loads(Ran([first, second], "list", "--json").end())
    want({agent["uid"]: agent["server"] for agent in table}[str(moved.uid)], f"127.0.0.1:{second.operator}", "the server of an agent that has moved")
    Ran([first, second], "restart", str(moved.uid)).end()
    second.take([moved])
    want(moved.restarts, 1, "the number of restarts")
    want("events" in stopped(second), True, "that the second server tells its events")
    Ran([second], "list").end(3)
    Ran([first, second], "list", "--brief").end()
    want("events" in stopped(first), True, "that the first server tells its events")


def stopped(server):
    Ran([server], "stop", "--yes").end()
    status, out = server.running.wait(60)
    want(status, 0, "the status of the server")
    return out


def main():
    program, count = os.path.abspath(sys.argv[1]), int(sys.argv[2]) if len(sys.argv) > 2 else 100
    with tempfile.TemporaryDirectory() as folder:
        servers = []
        try:
            servers += [Server(program, folder)]
            servers += [Server(program, folder)]
            players = [Player(index) for index in range(count)]
            servers[0].take(players)
            try_looking(servers[0], players)
            try_orders(servers[0], players, folder)
            try_rollouts(servers[0], players, folder)
            try_forgetting(servers[0], players)
            try_errors(servers[0], players, folder)
            try_several(servers[0], servers[1], players)
        finally:
            for server in servers:
                server.running.kill()
    print(f"{count} agents: all as it should be")


if __name__ == "__main__":
    main()
