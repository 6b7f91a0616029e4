"""`apply` and `wanted` as they are called: words, what they write, and how they end."""
import contextlib
import io
import json
import os
import re
import signal
import subprocess
import sys
import tempfile
import time
import unittest

from played_etcd import PlayedMember, PlayedStore
from played_fleet import PlayedAgent, PlayedServer, uid_of
from scripted import WithServers
from gisavelom_operator import stored
from gisavelom_operator.applying import Watching
from gisavelom_operator.commands import Desk
from gisavelom_operator.etcd import Changed, Etcd, Member
from gisavelom_operator.fleet import Fleet
from gisavelom_operator.lines import Address, Session
from gisavelom_operator.offers import OfferedConfig, OfferedFile, contents
from gisavelom_operator.problems import NotRight, Problem
from gisavelom_operator.rounds import Rounds
from gisavelom_operator.sources import Folder

OPERATOR = os.path.join(os.path.dirname(os.path.dirname(os.path.abspath(__file__))), "operator")
GOOD = OfferedConfig((OfferedFile.of("agent.yaml", "", b"k: v"),)).hash()


class WithFolder(WithServers):
    def setUp(self):
        made = tempfile.TemporaryDirectory()
        self.addCleanup(made.cleanup)
        self.folder = os.path.join(made.name, "wanted")
        self.server = PlayedServer()
        self.addCleanup(self.server.close)
        self.write(table=b"* agent.yaml\n", **{"agent.yaml": b"k: v"})

    def write(self, **files):
        os.makedirs(self.folder, exist_ok=True)
        for name, content in files.items():
            with open(os.path.join(self.folder, name), "wb") as file:
                file.write(content)

    def agents(self, count, first=1, **attributes):
        agents = [PlayedAgent(first + at, **attributes) for at in range(count)]
        self.report(agents)
        return agents

    def report(self, agents):
        for agent in agents:
            agent.report(self.server)

    def run_once(self, *words, says=None):
        return self.run_operator([self.server], *words, says=says)


class Applying(WithFolder):
    def test_what_differs_is_ordered(self):
        agents = self.agents(2)
        self.assertEqual(self.run_once("apply", self.folder, "--yes"), (0, "line 1: 2 ordered now\n", ""))
        self.report(agents)
        self.assertEqual(self.run_once("apply", self.folder), (0, "line 1: 2 offered\n", ""))
        self.report(agents)
        self.assertEqual(self.run_once("apply", self.folder), (0, "line 1: 2 applied\n", ""))
        self.assertEqual(len(self.server.ordered()), 2)

    def test_it_asks_first(self):
        self.agents(2)
        asks = f"order 2 offers, as {self.folder} wants it? [y/N] "
        self.assertEqual(self.run_once("apply", self.folder), (11, "", "operator: where nobody can be asked this takes --yes\n"))
        self.assertEqual(self.run_once("apply", self.folder, says="\n"), (11, "", asks + "operator: nothing was done\n"))
        self.assertEqual(self.server.ordered(), [])
        self.assertEqual(self.run_once("apply", self.folder, says="y\n"), (0, "line 1: 2 ordered now\n", asks))

    def test_a_dry_run_orders_nothing(self):
        self.agents(2)
        self.write(table=b"* agent.yaml width 1 allowed 0")
        status, out, err = self.run_once("apply", self.folder, "--dry-run")
        self.assertEqual((status, err, self.server.ordered()), (0, "", []))
        self.assertEqual(out, f"{uid_of(1)} would be offered what line 1 wants, hash {GOOD}\nline 1: 1 would be ordered, 1 differ (wait their turn)\n")

    def test_waves_and_a_halt(self):
        self.write(table=b"* agent.yaml width 2 allowed 0")
        agents = self.agents(3)
        agents[0].refuses = b"k: v"
        self.assertEqual(self.run_once("apply", self.folder, "--yes"), (0, "line 1: 2 ordered now, 1 differ (wait their turn)\n", ""))
        self.report(agents)
        self.report(agents)
        self.assertEqual(self.run_once("apply", self.folder, "--yes"),
                         (8, f"line 1: 1 applied, 1 failed, 1 differ (halted)\n{uid_of(1)} failed: bad \\u001b words\n",
                          "operator: halted, since more agents failed than is allowed: line 1\n"))

    def test_lines_that_find_nobody_and_agents_in_none(self):
        self.write(table=b"role=x agent.yaml\nrole=y alone\n00000002 agent.yaml")
        self.agents(1, role="y")
        self.agents(2, first=2)
        said = "line 1: no agents\nline 3: 1 ordered now\nbesides: 1 are left alone, 1 are in no line\n"
        self.assertEqual(self.run_once("apply", self.folder, "--yes"), (0, said, ""))

    def test_what_is_refused(self):
        self.agents(3)
        self.server.refusal = "no memory"
        status, _, err = self.run_once("apply", self.folder, "--yes")
        why = f"the server at {self.server.name} refused: no memory"
        self.assertEqual((status, err), (4, f"operator: 3 orders weren't taken: {why}\noperator: 3 orders weren't taken: {why}\n"))

    def test_what_can_not_be_had(self):
        nobody = self.nobody()
        for words, status, why in [
            ((self.folder, "--etcd", "http://h"), 2, "the wanted state is that of a FOLDER, or of --etcd URL"),
            ((), 2, "the wanted state is that of a FOLDER, or of --etcd URL"),
            (("--etcd", "h"), 2, "h isn't http://HOST:PORT or https://HOST:PORT, as http://127.0.0.1:2379"),
            (("--etcd", "http://h", "--prefix", ""), 2, "etcd is reached by --etcd URL, and its keys have a beginning"),
            (("--etcd", f"http://{nobody}"), 3, f"no etcd at {nobody}: connection refused"),
            (("--etcd", "https://h", "--etcd-authority", "/nowhere"), 9, "the certificates for etcd can't be taken: no such file or directory"),
            (("/nowhere",), 9, "/nowhere/table can't be read: no such file or directory"),
        ]:
            with self.subTest(words):
                self.assertEqual(self.run_once("apply", *words), (status, "", f"operator: {why}\n"))
        self.write(table=b"x agent.yaml")
        self.assertEqual(self.run_once("apply", self.folder)[0], 9)
        self.write(table=b"* agent.yaml")
        self.assertEqual(self.run_operator([nobody], "apply", self.folder), (3, "", f"operator: no server at {nobody}: connection refused\n"))
        for words in (("--watch", "--dry-run"), ("--watch", "--wait", "1"), ("--every", "0")):
            with self.subTest(words), self.assertRaises(SystemExit), contextlib.redirect_stderr(io.StringIO()):
                self.run_once("apply", self.folder, *words)

    def test_a_server_that_is_silent_is_told(self):
        nobody = self.nobody()
        self.agents(1)
        self.write(table=b"00000001 agent.yaml\n* agent.yaml width 1 allowed 0")
        self.agents(1, first=2)
        status, out, err = self.run_operator([self.server, nobody], "apply", self.folder, "--yes")
        self.assertEqual((status, out), (0, "line 1: 1 ordered now\nline 2: 1 differ (held: a server is silent)\n"))
        self.assertEqual(err, f"operator: no server at {nobody}: connection refused\n")


class Looking(WithFolder):
    def test_check(self):
        self.write(table=b"# note\nrole='a b' agent.yaml width 2 allowed 1\n00000002 alone\n")
        status, out, err = self.run_operator([self.nobody()], "wanted", "check", self.folder)
        self.assertEqual((status, err), (0, ""))
        self.assertEqual(out.split("\n"), [
            "LINE  HASH          WAVE  SAYS",
            f"2     {GOOD[:12]}  2/1   'role=a b' agent.yaml width 2 allowed 1",
            "3     alone         -     00000002 alone",
            "",
        ])

    def test_status(self):
        agents = self.agents(3, role="x")
        agents[0].refuses = b"k: v"
        self.write(table=b"role=x agent.yaml width 3 allowed 0")
        self.run_once("apply", self.folder, "--yes")
        self.report(agents[:2])
        self.report(agents[:2])
        self.agents(1, first=9)
        status, out, err = self.run_once("wanted", "status", self.folder)
        self.assertEqual((status, err), (0, ""))
        self.assertEqual([line.split() for line in out.split("\n")], [
            ["LINE", "HASH", "APPLIED", "OFFERED", "FAILED", "ILL", "DIFFER", "OTHERS", "-", "SAYS"],
            ["1", GOOD[:12], "1", "1", "1", "0", "0", "0", "halted", *"role=x agent.yaml width 3 allowed 0".split()],
            ["-"] * 7 + ["1", "-", "agents", "in", "no", "line"], f"{uid_of(1)} failed: bad \\u001b words".split(), []])
        told = json.loads(self.run_once("wanted", "status", self.folder, "--json")[1])
        self.assertEqual(told["lines"], [{"line": 1, "says": "role=x agent.yaml width 3 allowed 0", "hash": GOOD, "halted": True, "held": False,
                                          "agents": {"applied": 1, "offered": 1, "failed": 1}}])
        self.assertEqual([(agent["line"], agent["is"]) for agent in told["agents"]], [(1, "failed"), (1, "applied"), (1, "offered"), (None, "unnamed")])
        self.assertEqual(self.server.ordered(), [f"{uid_of(at)}" for at in (1, 2, 3)])

    def test_diff(self):
        agents = self.agents(2)
        self.run_once("apply", self.folder, "--yes")
        self.report(agents[:1])
        self.report(agents[:1])
        self.assertEqual(self.run_once("wanted", "diff", self.folder)[1].split("\n")[1:], [f"{uid_of(2)}  -     1     offered  unset  {GOOD[:12]}", ""])
        self.write(**{"agent.yaml": b"a: b\nk: v\n"})
        rows = self.run_once("wanted", "diff", self.folder)[1].split("\n")
        self.assertEqual(rows[1].split()[3:6], ["differs", GOOD[:12], "applied"])
        status, out, _ = self.run_once("wanted", "diff", self.folder, "--agent", "00000001")
        self.assertEqual((status, out.split("\n")[1:]), (0, ["--- told/agent.yaml", "+++ wanted/agent.yaml", "@@ -1 +1,2 @@", "+a: b", " k: v", ""]))
        self.write(table=b"* alone")
        self.assertEqual(self.run_once("wanted", "diff", self.folder, "--agent", "00000001"), (0, f"nothing is wanted of {uid_of(1)}\n", ""))
        self.assertEqual(self.run_once("wanted", "diff", self.folder, "--agent", "ffff")[0], 5)

    def test_diff_of_files_that_come_and_go(self):
        agents = self.agents(1)
        self.run_once("apply", self.folder, "--yes")
        self.report(agents)
        self.report(agents)
        self.write(table=b"* agent.yaml as new.yaml")
        out = self.run_once("wanted", "diff", self.folder, "--agent", "00000001")[1]
        heads = ["--- told/agent.yaml", "+++ /dev/null", "--- /dev/null", "+++ wanted/new.yaml"]
        self.assertEqual([line for line in out.split("\n") if line[:3] in ("---", "+++")], heads)


class Watched(WithFolder):
    def until(self, so, seconds=20):
        end = time.monotonic() + seconds
        while not so():
            self.assertLess(time.monotonic(), end, "it didn't come")
            time.sleep(0.02)

    def started(self, *words):
        self.log = os.path.join(self.folder, "log")
        self.write(log=b"")
        with open(self.log, "ab") as log:
            process = subprocess.Popen([sys.executable, "-B", OPERATOR, "--server", self.server.name, "apply", *words], stdout=log, stderr=log)
        self.addCleanup(process.wait)
        self.addCleanup(process.kill)
        return process

    def told(self):
        """What it wrote, without the times."""
        return [re.sub("^[0-9:]{8}  ", "", line) for line in contents(self.log).decode().split("\n")[:-1]]

    def test_a_change_is_taken_up_and_ctrl_c_ends_it(self):
        agents = self.agents(2)
        process = self.started(self.folder, "--watch", "--every", "0.1", "--yes")
        self.until(lambda: len(self.server.standing) == 2)
        self.report(agents)
        self.report(agents)
        self.write(**{"agent.yaml": b"k: w"})
        self.until(lambda: all(offer.files[0].body == b"k: w" for offer in self.server.standing.values()))
        self.agents(1, first=3)
        self.until(lambda: len(self.server.standing) == 3)
        self.write(table=b"x")
        self.until(lambda: any(line.startswith("operator: table, line 1: `x` finds no agent") for line in self.told()))
        self.agents(1, first=4)
        time.sleep(0.5)
        self.assertEqual(len(self.server.standing), 3)
        self.write(table=b"* agent.yaml")
        self.until(lambda: len(self.server.standing) == 4 and "the former problems are over" in self.told())
        self.assertEqual(self.told()[0], "line 1: 2 ordered now")
        process.send_signal(signal.SIGINT)
        self.assertEqual(process.wait(20), 0)

    def test_until_all_have_it(self):
        agents = self.agents(2)
        process = self.started(self.folder, "--wait", "60", "--every", "0.1", "--yes")
        self.until(lambda: len(self.server.standing) == 2)
        self.report(agents)
        self.report(agents)
        self.assertEqual((process.wait(30), self.told()[-1]), (0, "line 1: 2 applied"))

    def test_until_some_have_failed(self):
        agents = self.agents(2)
        agents[0].refuses = b"k: v"
        self.write(table=b"* agent.yaml width 1 allowed 0")
        process = self.started(self.folder, "--wait", "60", "--every", "0.1", "--yes")
        self.until(lambda: len(self.server.standing) == 1)
        self.report(agents)
        self.report(agents)
        self.assertEqual((process.wait(30), self.told()[-1]), (8, "operator: 1 agents failed what is wanted, 1 others wait"))

    def test_the_time_is_over(self):
        self.agents(1)
        self.assertEqual(self.run_once("apply", self.folder, "--wait", "0.1", "--every", "0.1", "--yes")[::2],
                         (7, "operator: not all agents have what is wanted within 0.1 seconds\n"))

    def test_only_what_is_new_is_told(self):
        agents = self.agents(30)
        for agent in agents:
            agent.refuses = b"k: v"
        fleet = Fleet([Session(Address.read(self.server.name), 5.0)])
        self.addCleanup(fleet.close)
        out, err = io.StringIO(), io.StringIO()
        rounds, watching = Rounds(fleet, Folder(self.folder)), Watching(Desk(fleet, out, err, io.StringIO()))

        def told():
            out.seek(0)
            out.truncate()
            picture = rounds.look()
            watching.tell(picture, rounds.order(picture))
            return [line[10:] for line in out.getvalue().split("\n")[:-1]]

        self.assertEqual((told(), told()), (["line 1: 30 ordered now"], ["line 1: 30 offered"]))
        self.report(agents)
        self.report(agents)
        lines = told()
        self.assertEqual((lines[0], lines[1], lines[-1], len(lines)), ("line 1: 30 failed", f"{uid_of(1)} failed: bad \\u001b words", ".. and 10 more", 22))
        self.assertEqual(told(), [])


class Stored(WithFolder):
    def setUp(self):
        super().setUp()
        self.store = PlayedStore()
        self.store.keys = {}
        self.member = PlayedMember(self.store)
        self.addCleanup(self.member.end)

    def wanted(self, deed, *words, says=None):
        return self.run_once("wanted", deed, "--etcd", self.member.url, "--prefix", "w/", *words, says=says)

    def test_a_folder_goes_there_and_comes_back(self):
        self.assertEqual(self.wanted("put", self.folder)[0], 11)
        out = "written: agent.yaml\nwritten: table\nw/ in etcd is that of {0} now\n".format(self.folder)
        self.assertEqual(self.wanted("put", self.folder, "--yes"), (0, out, ""))
        self.assertEqual(self.store.values(), {"w/table": b"* agent.yaml\n", "w/agent.yaml": b"k: v"})
        self.assertEqual(self.wanted("put", self.folder), (0, f"w/ in etcd is that of {self.folder} already\n", ""))
        self.write(table=b"* new", new=b"new", unnamed=b"")
        out = f"written: new\nwritten: table\ndeleted: agent.yaml\nw/ in etcd is that of {self.folder} now\n"
        self.assertEqual(self.wanted("put", self.folder, says="y\n"), (0, out, "change 3 keys below w/ in etcd? [y/N] "))
        self.assertEqual(self.store.values(), {"w/table": b"* new", "w/new": b"new"})
        other = os.path.join(self.folder, "other")
        self.assertEqual(self.wanted("get", other)[0], 0)
        self.assertEqual({name: contents(os.path.join(other, name)) for name in os.listdir(other)}, {"table": b"* new", "new": b"new"})

    def test_a_folder_that_is_not_right_does_not_go_there(self):
        self.write(table=b"* nowhere")
        self.assertEqual(self.wanted("put", self.folder, "--yes"), (9, "", "operator: table, line 1: there is no file nowhere\n"))
        self.assertEqual(self.store.values(), {})

    def test_keys_that_are_no_paths_are_not_written(self):
        self.store.put(table=b"* a", a=b"1", **{"../x": b"evil"})
        other = os.path.join(self.folder, "other")
        status, _, err = self.wanted("get", other)
        self.assertEqual((status, err, sorted(os.listdir(other))), (0, "operator: the key ../x is no path of a file, and is passed over\n", ["a", "table"]))

    def test_apply_and_status_read_it(self):
        self.store.put(table=b"* a", a=b"1")
        self.agents(1)
        self.assertEqual(self.run_once("apply", "--etcd", self.member.url, "--prefix", "w/", "--yes"), (0, "line 1: 1 ordered now\n", ""))
        self.assertEqual(self.wanted("status")[0], 0)
        self.assertEqual(self.wanted("check")[0], 0)

    def edited(self, content, path="table", between=None):
        """What the operator found who writes this, and what came of it: what was said, or the problem."""
        found, out = [], io.StringIO()

        def edit(draft):
            found.append(contents(draft))
            if content is not None:
                with open(draft, "wb") as file:
                    file.write(content)
            if between:
                between()

        etcd = Etcd([Member.read(self.member.url)], "w/", 5.0)
        try:
            stored.edit_wanted(Desk(Fleet([]), out, out, out), etcd, path, edit)
            return found[0], out.getvalue()
        except Problem as why:
            return found[0], why

    def test_editing(self):
        self.assertEqual(self.edited(b"1", "a"), (b"", "a is written\n"))
        self.assertEqual(self.edited(b"* a"), (b"", "table is written\n"))
        self.assertEqual(self.edited(b"2", "a"), (b"1", "a is written\n"))
        self.assertEqual(self.edited(None), (b"* a", "nothing was changed\n"))
        self.assertEqual(self.store.values(), {"w/table": b"* a", "w/a": b"2"})
        self.assertEqual(self.wanted("edit", "../x")[0], 2)

    def test_what_another_changed_meanwhile_is_not_written_over_and_the_text_is_kept(self):
        self.store.put(table=b"* a", a=b"1")
        for content, between, kind, why in [(b"# mine\n* a", lambda: self.store.put(a=b"other"), Changed, "changed by another meanwhile"),
                                            (b"* x", None, NotRight, "there is no file x")]:
            _, problem = self.edited(content, between=between)
            self.assertIsInstance(problem, kind)
            self.assertIn(why, str(problem))
            path = str(problem).rpartition("kept in ")[2]
            self.assertEqual(contents(path), content)
            os.unlink(path)
            os.rmdir(os.path.dirname(path))
        self.assertEqual(self.store.values(), {"w/table": b"* a", "w/a": b"other"})

    def test_the_editor_of_the_environment(self):
        self.store.put(table=b"* a", a=b"1")
        script = os.path.join(self.folder, "editor.py")
        self.write(**{"editor.py": b"import sys\nopen(sys.argv[2], 'a').write('\\n')\nsys.exit(int(sys.argv[1]))\n"})
        refused = f"operator: the editor {sys.executable} ended with status 3: nothing was written\n"
        for status, wanted in ((0, (0, "table is written\n", "")), (3, (9, "", refused))):
            os.environ["VISUAL"] = f"{sys.executable} {script} {status}"
            self.addCleanup(os.environ.pop, "VISUAL", None)
            self.assertEqual(self.wanted("edit"), wanted)
        self.assertEqual(self.store.values()["w/table"], b"* a\n")


if __name__ == "__main__":
    unittest.main()
