"""A collector and an agent that are played, and tools/collector between them, with short times."""
import contextlib
import os
import signal
import subprocess
import sys
import tempfile
import time
import unittest

TOP = os.path.dirname(os.path.dirname(os.path.dirname(os.path.abspath(__file__))))
sys.dont_write_bytecode = True
for below in ("tools", "bench"):
    sys.path.insert(0, os.path.join(TOP, below))
from opamp_wire import Report, field, part, text

APPLIED, APPLYING, FAILED = 1, 2, 3
# Its configuration is the file c.conf: `run WORDS`, `die`, `die-later`, `sick`. It notes what it runs in `state`, and in `twice` where another one runs.
COLLECTOR = r'''
import fcntl, os, signal, sys, time
held = open("only", "w")
try:
    fcntl.flock(held, fcntl.LOCK_EX | fcntl.LOCK_NB)
except OSError:
    open("twice", "w").close()
def take(*_):
    words = open(sys.argv[1] + "/c.conf").read().strip()
    print("info: took", words, flush=True)
    if words == "die":
        print("error: no such thing as die", flush=True)
        sys.exit(3)
    with open("state.new", "w") as out:
        out.write(f"{os.getpid()} {words}")
    os.rename("state.new", "state")
    if words == "die-later":
        signal.setitimer(signal.ITIMER_REAL, 0.2)
signal.signal(signal.SIGHUP, take)
signal.signal(signal.SIGALRM, lambda *_: sys.exit(4))
signal.signal(signal.SIGTERM, lambda *_: sys.exit(0))
take()
while True:
    signal.pause()
'''
CHECK = """sh -c 'if grep refuse "$1"/c.conf; then echo no; exit 1; fi; sleep ${SLOW:-0}' check {files}"""
HEALTH = """sh -c 'grep -q "^$COLLECTOR_PID " state || exit 1; ! grep sick state' health"""
TIMES = ["--quiet", "0.2", "--steady", "0.8", "--patience", "4", "--stop-seconds", "2"]


class Program:
    """tools/collector as a process."""

    def __init__(self, folder, *options, environment=None):
        self.log = open(os.path.join(folder, "log"), "ab")
        run = f"{sys.executable} {os.path.join(folder, 'collector.py')} {{files}}"
        words = [sys.executable, "-B", os.path.join(TOP, "tools", "collector"), "--folder", folder, "--run", run, "--check", CHECK, "--health", HEALTH, *TIMES]
        self.process = subprocess.Popen(words + list(options), stderr=self.log, env={**os.environ, **(environment or {})})

    def kill(self, number=signal.SIGKILL):
        self.process.send_signal(number)
        return self.wait()

    def wait(self):
        status = self.process.wait(20)
        self.log.close()
        return status


class Played(unittest.TestCase):
    """The agent's part, in a folder of its own."""

    def setUp(self):
        made = tempfile.TemporaryDirectory()
        self.addCleanup(made.cleanup)
        self.folder = made.name
        with open(self.path("collector.py"), "w") as out:
            out.write(COLLECTOR)
        self.number, self.program = 0, None
        self.addCleanup(self.end)

    def path(self, *names):
        return os.path.join(self.folder, *names)

    def start(self, *options, **more):
        self.program = Program(self.folder, *options, **more)

    def end(self):
        if self.program and self.program.process.poll() is None:
            self.program.kill(signal.SIGTERM)
        self.assertFalse(os.path.exists(self.path("twice")), "two collectors ran at once")

    def write(self, area, name, content):
        folder = self.path("opamp.d", area)
        os.makedirs(folder, exist_ok=True)
        with open(os.path.join(folder, ".new"), "wb") as out:
            out.write(content)
        os.replace(os.path.join(folder, ".new"), os.path.join(folder, name))

    def bring(self, files):
        """The files as the agent brings them: all are written, and then others removed."""
        for name in sorted(files):
            self.write("config", name, files[name])
        for name in os.listdir(self.path("opamp.d", "config")):
            if name not in files:
                os.unlink(self.path("opamp.d", "config", name))

    def begin(self, *words, hash="ab"):
        """A trial of the file c.conf with these words; gives its name."""
        self.number += 1
        name = f"{self.number} {hash}".encode()
        self.write("status", "trial", name + b"\n")
        if words:
            self.bring({"c.conf": " ".join(words).encode()})
        return name

    def report(self):
        with contextlib.suppress(FileNotFoundError), open(self.path("opamp.d", "status", "status.pb"), "rb") as file:
            return Report(file.read())
        return None

    def outcome(self, name, seconds=40):
        """The word on the trial: its status and error."""
        def said():
            report = self.report()
            return report and report.remote and report.remote[0] == name and report.remote[1] != APPLYING and report.remote[1:]
        return self.until(said, seconds)

    def until(self, asked, seconds=40):
        end = time.monotonic() + seconds
        while time.monotonic() < end:
            answer = asked()
            if answer:
                return answer
            time.sleep(0.05)
        with open(self.path("log")) as log:
            self.fail("it didn't come\n" + log.read())

    def health(self):
        """Whether it is healthy, its status and its error."""
        report = self.report()
        told = part(report.bytes, 5) if report else b""
        return bool(field(told, 1, 0)), text(field(told, 4)), text(field(told, 3))

    def state(self):
        """The collector's number and what it runs."""
        with contextlib.suppress(FileNotFoundError), open(self.path("state")) as file:
            pid, words = file.read().split(" ", 1)
            with contextlib.suppress(OSError), open(f"/proc/{pid}/stat") as stat:
                if stat.read().rsplit(")", 1)[1].split()[0] not in "ZX":
                    return int(pid), words
        return 0, ""

    def running(self, words, healthy=True):
        """Waits until the collector runs this and the status says so, and gives its number."""
        def so():
            report = self.report()
            return self.state()[1] == words and self.health()[0] == healthy and report.files == {"c.conf": words.encode()} and self.state()[0]
        return self.until(so)
