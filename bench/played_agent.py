#!/usr/bin/env python3
"""Plays the part of `agent --prove SECONDS` between an offer and its outcome, for bench/kill_collector: bench/played_agent.py FOLDER SECONDS

It has what bench/kill_collector needs where the proved program isn't built: FOLDER/offer.json is the offer of a server that isn't there, FOLDER/record.json
what that would know of the agent. A configuration is kept, by one file that is renamed, only where the collector said APPLIED under the trial's name; at each
start the area is brought to what was kept. It may be killed at any moment.
"""
import json
import os
import sys
import time

sys.dont_write_bytecode = True
sys.path.insert(0, os.path.dirname(os.path.abspath(__file__)))
from opamp_wire import Bad, Report, field, part, text

APPLIED, FAILED = 1, 3


def write_whole(path, content):
    os.makedirs(os.path.dirname(path), exist_ok=True)
    new = os.path.join(os.path.dirname(path), ".new")
    with open(new, "wb") as out:
        out.write(content)
        out.flush()
        os.fsync(out.fileno())
    os.replace(new, path)


class PlayedAgent:
    def __init__(self, folder, seconds):
        self.folder, self.seconds = folder, seconds
        self.kept = self.read("kept.json") or {"files": {}, "hash": "", "status": 0, "error": "", "number": 0}
        self.life = time.time_ns()

    def path(self, *names):
        return os.path.join(self.folder, *names)

    def read(self, name):
        try:
            with open(self.path(name)) as file:
                return json.load(file)
        except FileNotFoundError:
            return None

    def keep(self, **changes):
        self.kept = {**self.kept, **changes}
        write_whole(self.path("kept.json"), json.dumps(self.kept).encode())

    def bring(self, files):
        for name in sorted(files):
            write_whole(self.path("opamp.d", "config", name), files[name].encode())
        for name in os.listdir(self.path("opamp.d", "config")) if files else []:
            if not name.startswith(".") and name not in files:
                os.unlink(self.path("opamp.d", "config", name))

    def status(self):
        try:
            with open(self.path("opamp.d", "status", "status.pb"), "rb") as file:
                return Report(file.read())
        except (FileNotFoundError, Bad):
            return None

    def report(self):
        """What a server would know behind a report."""
        told = self.status()
        health = part(told.bytes, 5) if told else b""
        files = {name: body.decode() for name, body in (told.files or {}).items()} if told else {}
        write_whole(self.path("record.json"), json.dumps({
            "files": files, "healthy": bool(field(health, 1, 0)), "status": text(field(health, 4)), "error": text(field(health, 3)),
            "remote": [self.kept["hash"], self.kept["status"], self.kept["error"]], "life": self.life}).encode())

    def try_offer(self, offer):
        """The files are brought behind the trial's name, and kept or brought back by the collector's word."""
        self.keep(number=self.kept["number"] + 1)
        name = f"{self.kept['number']} {offer['hash']}"
        write_whole(self.path("opamp.d", "status", "trial"), name.encode() + b"\n")
        self.bring(offer["files"])
        end, error = time.monotonic() + self.seconds, "not taken"
        while time.monotonic() < end:
            told = self.status()
            if told and told.remote and told.remote[0] == name.encode() and told.remote[1] in (APPLIED, FAILED):
                error = None if told.remote[1] == APPLIED else f"refused: {told.remote[2]}"
                break
            time.sleep(0.25)
        if error is None:
            self.keep(files=offer["files"], hash=offer["hash"], status=APPLIED, error="")
        else:
            self.bring(self.kept["files"])
            self.keep(hash=offer["hash"], status=FAILED, error=error)

    def run(self):
        self.bring(self.kept["files"])
        while True:
            self.report()
            offer = self.read("offer.json")
            if offer and offer["hash"] != self.kept["hash"]:
                self.try_offer(offer)
            else:
                time.sleep(0.25)


if __name__ == "__main__":
    PlayedAgent(sys.argv[1], float(sys.argv[2])).run()
