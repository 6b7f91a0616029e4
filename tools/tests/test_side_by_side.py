"""tools/prove-side-by-side over a tree of its own and an `rt` that is played."""
import os
import re
import shutil
import signal
import subprocess
import sys
import tempfile
import time
import unittest

SCRIPT = os.path.join(os.path.dirname(os.path.dirname(os.path.abspath(__file__))), "prove-side-by-side")
# It takes so long as the crate's file `seconds` says, and notes when it began and ended, and with which words. `fails` and `killed` (once) end it otherwise.
RT = r'''#!{python}
import os, signal, sys, time
name = os.path.basename(os.getcwd())
note = lambda *words: open("{log}", "a").write(" ".join(map(str, (name, *words))) + "\n")
program = os.path.isfile("src/main.rt")
made = "out/" + name if program else "out/rlib/stamp"
if not os.path.isfile(made):
    note("begins", *sys.argv[1:])
    time.sleep(float(open("src/seconds").read()))
    if os.path.isfile("src/fails"):
        sys.exit("no goal is proved")
    if os.path.isfile("src/killed") and not os.path.isfile("{log}.killed"):
        open("{log}.killed", "w").close()
        os.kill(os.getpid(), signal.SIGKILL)
    os.makedirs(os.path.dirname(made), exist_ok=True)
    with open(made, "w") as file:
        file.write("#!/bin/sh\necho ran $*\n")
    os.chmod(made, 0o755)
    print("logic=proved")
    note("ends")
if program:
    print("rt: running out/" + name + ";")
'''


class Proving(unittest.TestCase):
    def setUp(self):
        made = tempfile.TemporaryDirectory()
        self.addCleanup(made.cleanup)
        self.top = os.path.realpath(made.name)
        os.makedirs(f"{self.top}/tools")
        shutil.copy(SCRIPT, f"{self.top}/tools")
        os.makedirs(f"{self.top}/bin")
        with open(f"{self.top}/bin/rt", "w") as file:
            file.write(RT.replace("{python}", sys.executable).replace("{log}", f"{self.top}/log"))
        os.chmod(f"{self.top}/bin/rt", 0o755)

    def crate(self, name, *uses, seconds=0.2, code=1, **files):
        folder = f"{self.top}/crates/{name}/src"
        os.makedirs(folder)
        is_program = name == "top"
        for path, content in {"main.rt" if is_program else "lib.rt": "x" * code, "seconds": str(seconds), **files}.items():
            with open(f"{folder}/{path}", "w") as file:
                file.write(content)
        with open(f"{self.top}/crates.txt", "a") as file:
            file.write(f"{name}: {' '.join(uses)}\n")

    def started(self, *words):
        words = [sys.executable, f"{self.top}/tools/prove-side-by-side", "--memory", "100000", *words]
        environment = {**os.environ, "PATH": f"{self.top}/bin:{os.environ['PATH']}"}
        process = subprocess.Popen(words, env=environment, stdout=subprocess.PIPE, stderr=subprocess.PIPE, text=True)
        self.addCleanup(process.communicate)
        self.addCleanup(process.kill)
        return process

    def run_all(self, *words):
        """Its status, what it wrote, and its lines on standard error."""
        process = self.started(*words)
        out, err = process.communicate(timeout=60)
        return process.returncode, out, err.rstrip("\n").split("\n")

    def noted(self):
        with open(f"{self.top}/log") as file:
            return [line.split() for line in file]

    def jobs(self):
        """How many processors each crate got, in the order of begin."""
        return [(name, int(words[-1])) for name, verb, *words in self.noted() if verb == "begins"]

    def test_the_first_line_says_how_long_it_takes(self):
        self.crate("low", code=40_000)
        self.crate("top", "low", code=1_000_000)
        status, out, lines = self.run_all("--jobs", "4", "top", "--", "a", "b")
        self.assertEqual((status, out), (0, "ran a b\n"))
        found = re.fullmatch("opamp: proving what isn't proved of 2 crates and building, 4 at a time at most: "
                             "some ([0-9]+) minutes at the pace of this machine; each line tells it anew", lines[0])
        self.assertGreater(int(found[1]), 20)
        self.assertRegex(lines[1], "opamp: low is proved in 1 s, 1 left, some [0-9]+ minutes")
        self.assertEqual(lines[2:], ["opamp: top is proved in 1 s, none left", "opamp: top and all that it stands on are proved"])

    def test_what_was_proved_tells_the_pace(self):
        """A machine that is much faster than was guessed: what is left is told to be less."""
        self.crate("first", code=200_000)
        self.crate("second", "first", code=1_000_000)
        lines = self.run_all("--jobs", "1", "second")[2]
        before, behind = (int(re.search("some ([0-9]+) minutes", line)[1]) for line in lines[:2])
        self.assertLess(behind, before / 3)

    def test_what_is_left_alone_has_all_processors(self):
        self.crate("low")
        self.crate("left", "low")
        self.crate("right", "low")
        self.crate("top", "left", "right")
        self.assertEqual(self.run_all("--jobs", "4", "top")[0], 0)
        self.assertEqual(dict(self.jobs()), {"low": 4, "left": 2, "right": 2, "top": 4})

    def test_what_begins_beside_a_short_one_leaves_it_a_processor(self):
        self.crate("short", code=1_000)
        self.crate("long", code=100_000)
        self.crate("top", "short", "long")
        self.assertEqual(self.run_all("--jobs", "4", "top")[0], 0)
        self.assertEqual(dict(self.jobs()), {"long": 3, "short": 1, "top": 4})

    def test_many_have_one_each(self):
        for name in "abcdef":
            self.crate(name, code=10_000, seconds=1.5)
        self.crate("top", *"abcdef")
        self.assertEqual(self.run_all("--jobs", "3", "top")[0], 0)
        self.assertEqual([jobs for _, jobs in self.jobs()][:4], [1, 1, 1, 1])
        beside, most = 0, 0
        for _, verb, *_ in self.noted():
            beside += 1 if verb == "begins" else -1
            most = max(most, beside)
        self.assertIn(most, (2, 3))

    def test_memory_bounds_the_processors(self):
        self.crate("top", code=100_000)  # 2,000 MB by one job, 60 of 100 more for each further
        process = self.started("--memory", "3500", "--jobs", "4", "top")
        process.communicate(timeout=60)
        self.assertEqual(self.jobs(), [("top", 2)])

    def test_one_that_was_killed_is_tried_alone(self):
        self.crate("low", killed="")
        self.crate("top", "low")
        status, _, lines = self.run_all("--jobs", "4", "top")
        self.assertEqual((status, self.jobs()), (0, [("low", 4), ("low", 1), ("top", 4)]))
        self.assertEqual(lines[1], "opamp: the proof of low was killed, most likely for memory: once more, with nothing beside it")

    def test_one_that_fails_ends_it(self):
        self.crate("low", fails="")
        self.crate("top", "low")
        status, _, lines = self.run_all("top")
        self.assertEqual((status, lines[-1]), (1, "no goal is proved"))
        self.assertEqual([name for name, _ in self.jobs()], ["low"])

    def test_ended_in_the_middle_it_goes_on(self):
        self.crate("low")
        self.crate("slow", "low", seconds=30)
        self.crate("top", "slow")
        process = self.started("--jobs", "2", "top")
        end = time.monotonic() + 30
        while not os.path.isfile(f"{self.top}/log") or ["slow", "begins"] not in [line[:2] for line in self.noted()]:
            self.assertLess(time.monotonic(), end)
            time.sleep(0.05)
        process.send_signal(signal.SIGTERM)
        self.assertEqual(process.wait(30), 143)
        with open(f"{self.top}/crates/slow/src/seconds", "w") as file:
            file.write("0.2")
        status, _, lines = self.run_all("--jobs", "2", "top")
        self.assertEqual(status, 0)
        self.assertEqual([name for name, _ in self.jobs()], ["low", "slow", "slow", "top"])
        self.assertRegex(lines[1], "opamp: low stands, 2 left")
        self.assertFalse(os.path.exists(f"{self.top}/crates/top/out/side-by-side/rooms"))


if __name__ == "__main__":
    unittest.main()
