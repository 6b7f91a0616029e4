#!/usr/bin/env python3
"""Tries tools/operator's apply and wanted on real servers and a real etcd: tools/tests/wanted_trial.py PROGRAM [AGENTS]

PROGRAM is the built program (crates/opamp_cli/out/opamp_cli), and etcd (Debian's etcd-server) has to be on the PATH. Three servers, three
members of etcd and two `apply --watch` run at free ports of the loopback address, and AGENTS agents (300) are played over HTTP. What is wanted
is changed while one server, one member and one `apply` are killed; all are started again. What was done is printed; the first thing that isn't
as it should be ends the trial with status 1. It is run by hand.
"""
import collections
import http.client
import json
import os
import shutil
import subprocess
import sys
import tempfile
import time

sys.path.insert(0, os.path.dirname(os.path.abspath(__file__)))
from serve_trial import OPERATOR, Player, want
from opamp_wire import Running, connected, free_ports

APART = 0.5  # seconds between two reports of an agent, at least


class Server:
    """A server that can be killed and started again at its ports."""

    def __init__(self, program, folder):
        self.program, self.folder = program, folder
        self.http, self.ws, self.operator = free_ports(3)
        self.start()

    def start(self):
        words = [self.program, "serve"]
        for option in ("http", "ws", "operator"):
            words += [f"--{option}", f"127.0.0.1:{getattr(self, option)}"]
        self.running = Running(words, self.folder)
        connected(self.operator, 60).close()

    @property
    def is_there(self):
        return self.running.ended() is None


class Member:
    """A member of etcd."""

    def __init__(self, name, ports, all_ports, folder):
        self.url = f"http://127.0.0.1:{ports[0]}"
        cluster = ",".join(f"{other}=http://127.0.0.1:{peer}" for other, (_, peer) in all_ports.items())
        peer = f"http://127.0.0.1:{ports[1]}"
        self.port = ports[0]
        self.words = ["etcd", "--name", name, "--data-dir", os.path.join(folder, f"etcd-{name}"), "--initial-cluster", cluster, "--log-level", "error",
                      "--listen-client-urls", self.url, "--advertise-client-urls", self.url, "--listen-peer-urls", peer, "--initial-advertise-peer-urls", peer]
        self.folder = folder
        self.start()

    def start(self):
        self.running = Running(self.words, self.folder)


class Trial:
    def __init__(self, program, count, folder):
        self.folder = folder
        self.servers, self.members, self.applying = [], [], []
        self.players = [Player(index) for index in range(count)]
        self.offered = collections.Counter()  # offers of each content, and those of a former one behind a later
        self.latest = {}
        self.began = time.monotonic()
        ports = free_ports(6)
        named = {name: (ports[2 * at], ports[2 * at + 1]) for at, name in enumerate("abc")}
        for name in named:
            self.members.append(Member(name, named[name], named, folder))
        for member in self.members:
            connected(member.port, 60).close()
        for _ in range(3):
            self.servers.append(Server(program, folder))

    def say(self, words):
        print(f"{time.monotonic() - self.began:7.2f} s  {words}", flush=True)

    def operator(self, *words, status=0, **environment):
        front = [word for server in self.servers for word in ("--server", f"127.0.0.1:{server.operator}")]
        ran = subprocess.run([*OPERATOR, "--timeout", "5", *front, *words], capture_output=True, text=True, env={**os.environ, **environment}, timeout=300)
        self.say(f"operator {' '.join(words[:2])}: status {ran.returncode} {ran.stderr.strip()[:200]}")
        want(ran.returncode, status, f"the status of {words}, which wrote {ran.stdout[-400:]!r}")
        return ran.stdout

    @property
    def etcd(self):
        return [word for member in self.members for word in ("--etcd", member.url)]

    def apply(self):
        """Another `apply --watch`."""
        front = [word for server in self.servers for word in ("--server", f"127.0.0.1:{server.operator}")]
        log = open(os.path.join(self.folder, f"apply-{len(self.applying)}"), "wb")
        with log:
            words = [*OPERATOR, "--timeout", "2", *front, "apply", *self.etcd, "--watch", "--every", "0.5", "--yes"]
            self.applying.append(subprocess.Popen(words, stdout=log, stderr=subprocess.STDOUT))

    def report(self, players):
        """Has each report once at its server, or at the next one that is there, and hear the reply."""
        began, connections = time.monotonic(), {}
        for player in players:
            at = int(player.uid) % len(self.servers)
            server = next(it for it in self.servers[at:] + self.servers[:at] if it.is_there)
            if server not in connections:
                connections[server] = http.client.HTTPConnection("127.0.0.1", server.http, timeout=60)
            before = player.remote
            connections[server].request("POST", "/v1/opamp", player.report(), {"Content-Type": "application/x-protobuf"})
            answer = connections[server].getresponse()
            player.hear(answer.read())
            if player.remote != before:
                self.count(player)
        for connection in connections.values():
            connection.close()
        time.sleep(max(0.0, began + APART - time.monotonic()))

    def count(self, player):
        """An offer that came to an agent."""
        content = player.files.get("agent.yaml", b"")
        self.offered[content] += 1
        if content < self.latest.get(player.uid, b""):
            self.offered["of a former state"] += 1
        self.latest[player.uid] = max(content, self.latest.get(player.uid, b""))

    def until(self, is_so, what, seconds=120):
        """Has all agents report until it is so."""
        end, passes, began = time.monotonic() + seconds, 0, time.monotonic()
        while not is_so():
            if time.monotonic() > end:
                sys.exit(f"it didn't come that {what}; {self.operator('wanted', 'status', *self.etcd)}")
            self.report(self.players)
            passes += 1
        self.say(f"{what}: {time.monotonic() - began:.1f} s, {passes} reports of each agent")

    def all_have(self, content):
        return all(player.files.get("agent.yaml") == content for player in self.players)

    def edit(self, path, content):
        """An operator who edits."""
        script = os.path.join(self.folder, "editor")
        with open(script, "wb") as file:
            file.write(b"#!/bin/sh\ncat >\"$1\" <<'END'\n" + content + b"END\n")
        os.chmod(script, 0o755)
        self.operator("wanted", "edit", *self.etcd, path, VISUAL=script)

    def end(self):
        for process in self.applying:
            process.kill()
            process.wait()
        for each in (*self.servers, *self.members):
            each.running.kill()


def play(trial):
    wanted = os.path.join(trial.folder, "wanted")
    os.mkdir(wanted)
    for name, content in (("table", b"* agent.yaml\n"), ("agent.yaml", b"k: 1\n")):
        with open(os.path.join(wanted, name), "wb") as file:
            file.write(content)
    trial.operator("wanted", "put", *trial.etcd, wanted, "--yes")
    trial.report(trial.players)
    trial.apply()
    trial.apply()
    trial.until(lambda: trial.all_have(b"k: 1\n"), "all agents have the first content")
    play_change_under_kills(trial)
    play_newcomers(trial)
    play_waves(trial)
    told = json.loads(trial.operator("wanted", "status", *trial.etcd, "--json"))
    trial.say(f"offers: {dict(trial.offered)}")
    want([sum(line["agents"].values()) for line in told["lines"]], [len(trial.players)], "the agents of the lines")
    for process in trial.applying[1:]:
        want(process.poll(), None, "that apply still runs")


def play_change_under_kills(trial):
    trial.edit("agent.yaml", b"k: 2\n")
    trial.report(trial.players[:len(trial.players) // 2])
    trial.applying[0].kill()
    trial.servers[1].running.kill()
    trial.members[0].running.kill()
    trial.say("an apply, a server and a member are killed")
    for _ in range(4):
        trial.report(trial.players)
    trial.edit("agent.yaml", b"k: 3\n")
    for _ in range(2):
        trial.report(trial.players)
    trial.servers[1].start()
    trial.members[0].start()
    trial.apply()
    trial.say("all three are started again")
    trial.until(lambda: trial.all_have(b"k: 3\n"), "all agents have the third content")
    for _ in range(10):
        trial.report(trial.players)
    want(trial.all_have(b"k: 3\n"), True, "that all agents keep it")


def play_newcomers(trial):
    count = len(trial.players)
    fresh = [Player(count + index) for index in range(20)]
    trial.players += fresh
    trial.report(fresh)
    time.sleep(3)
    trial.report(fresh)
    want(trial.all_have(b"k: 3\n"), True, "that new agents have it with their second report")
    trial.say("20 new agents have it with their second report")


def play_waves(trial):
    """A file that every agent refuses, two at a time, of which one may fail; and the way back."""
    trial.edit("bad.yaml", b"k: 4\n")
    trial.edit("table", b"* bad.yaml width 5 allowed 2\n")
    for _ in range(20):
        trial.report(trial.players)
    failed = sum(player.remote[-8:] == b"bad name" for player in trial.players)
    want(failed in (3, 4, 5), True, f"that the wave was halted; {failed} failed")
    trial.say(f"a wave of 5 of which 2 may fail was halted behind {failed}")
    trial.operator("apply", *trial.etcd, "--yes", status=8)
    trial.edit("agent.yaml", b"k: 5\n")
    trial.edit("table", f"* agent.yaml width {len(trial.players) // 4} allowed 0\n".encode())
    trial.until(lambda: trial.all_have(b"k: 5\n"), "all agents have the content behind it, a quarter at a time")
    trial.report(trial.players)
    time.sleep(2)


def main():
    program, count = os.path.abspath(sys.argv[1]), int(sys.argv[2]) if len(sys.argv) > 2 else 300
    if not shutil.which("etcd"):
        sys.exit("etcd isn't on the PATH (Debian's package etcd-server)")
    with tempfile.TemporaryDirectory() as folder:
        trial = Trial(program, count, folder)
        try:
            play(trial)
        finally:
            trial.end()
    print(f"{count} agents: all as it should be")


if __name__ == "__main__":
    main()
