"""`rollout` and `forget` as they are called: the lines they say, what they write, and how they end. Expected texts follow from docs/PROTOCOL.md by hand."""
import contextlib
import hashlib
import io
import json
import os
import re
import tempfile
import threading
import unittest
import unittest.mock

from played_fleet import ACCEPTS, PlayedAgent, uid_of
from played_rollouts import RollingServer
from scripted import AGES, CONFIG_MESSAGE, LEFT, LISTED, OTHER, SHOWN, UID, UNKNOWN, WithServers, telling
from gisavelom_operator import rollouts
from gisavelom_operator.agents import summary_of
from gisavelom_operator.commands import Desk
from gisavelom_operator.fleet import Fleet
from gisavelom_operator.lines import Address, Member, Rollout, Session, WithoutRollouts
from gisavelom_operator.problems import NoSuchRollout, NotUnderstood, OfferFailed, Refused, TimeOver
from gisavelom_operator.tables import parts_of

HASH = hashlib.sha256(CONFIG_MESSAGE).hexdigest()
OFFERED = f"agent.yaml (text/yaml, 4 bytes), hash {HASH}"
LINE = "rollout main 2/1 agent.yaml text/yaml 6b3a2076"
THREE = f"{UID} 7 here healthy\n{OTHER} 1 here unknown\n{LEFT} 300 left unhealthy\nend\n"
FLEET = {"list": THREE, f"show {UID}": telling(), f"show {OTHER}": SHOWN, f"show {LEFT}": telling(), "rollouts": "end\n"}
MAIN = "main waiting 12 offered 2 applied 31 failed 1"


class WithFile(WithServers):
    def setUp(self):
        made = tempfile.TemporaryDirectory()
        self.addCleanup(made.cleanup)
        self.folder = made.name
        self.path = self.file("agent.yaml", b"k: v")

    def file(self, name, content):
        path = os.path.join(self.folder, name)
        with open(path, "wb") as file:
            file.write(content)
        return path

    def begin(self, servers, *words, says=None):
        return self.run_operator(servers, "rollout", "begin", *words, says=says)


class Reading(WithServers):
    def test_lines_of_rollouts(self):
        self.assertEqual(Rollout.read(MAIN), Rollout("main", 12, 2, 31, 1, False))
        self.assertEqual(Rollout.read("-_9Z waiting 0 offered 0 applied 0 failed 18446744073709551615 halted"), Rollout("-_9Z", 0, 0, 0, 2**64 - 1, True))
        for line in ("", "main", MAIN + " ", MAIN + " over", "ma.in waiting 1 offered 2 applied 3 failed 4", "main waiting x offered 2 applied 3 failed 4",
                     "a" * 65 + " waiting 1 offered 2 applied 3 failed 4", "main offered 2 waiting 1 applied 3 failed 4"):
            with self.subTest(line), self.assertRaises(NotUnderstood):
                Rollout.read(line)

    def test_whether_it_goes_on(self):
        for counts, state in [((0, 0, 0, 0), "goes on"), ((1, 0, 3, 0), "goes on"), ((0, 1, 3, 0), "goes on"), ((0, 0, 3, 1), "over")]:
            self.assertEqual(Rollout("a", *counts, False).state, state)
            self.assertEqual(Rollout("a", *counts, True).state, "halted")

    def test_lines_of_members(self):
        for fate in ("waiting", "offered", "applied", "failed"):
            self.assertEqual(Member.read(f"{UID} {fate}"), Member(UID, fate))
        for line in (UID, f"{UID} gone", f"{UID} waiting x"):
            with self.subTest(line), self.assertRaises(NotUnderstood):
                Member.read(line)

    def test_answers(self):
        server = self.server({"rollouts": [MAIN + "\nb waiting 0 offered 0 applied 0 failed 0 halted\nend\n", "end\n", "refused: words\n", "refused: no memory\n"],
                              "members main": f"{OTHER} applied\n{UID} waiting\nend\n", "members b": "refused: no rollout\n", "halt b": "refused: no rollout\n"})
        session = Session(Address("127.0.0.1", server.port), 5.0)
        self.addCleanup(session.close)
        self.assertEqual(session.rollouts(), [Rollout("main", 12, 2, 31, 1, False), Rollout("b", 0, 0, 0, 0, True)])
        self.assertEqual(session.rollouts(), [])
        with self.assertRaises(WithoutRollouts):
            session.rollouts()
        with self.assertRaisesRegex(Refused, "refused: no memory"):
            session.rollouts()
        self.assertEqual(session.members("main"), [Member(OTHER, "applied"), Member(UID, "waiting")])
        with self.assertRaises(NoSuchRollout):
            session.members("b")
        with self.assertRaises(NoSuchRollout):
            session.order("halt b")
        self.assertEqual(server.connections, 1)

    def test_bars(self):
        for counts, columns, parts in [((0, 0, 0, 0), 10, [0, 0, 0, 0]), ((1, 0, 0, 0), 10, [10, 0, 0, 0]), ((1, 1, 1, 1), 8, [2, 2, 2, 2]),
                                       ((998, 1, 1, 0), 10, [8, 1, 1, 0]), ((0, 0, 1, 3), 10, [0, 0, 3, 7]), ((1, 1, 1, 0), 10, [4, 3, 3, 0]), ((24, 1, 12, 3), 30, [18, 1, 9, 2])]:
            with self.subTest(counts):
                self.assertEqual(parts_of(counts, columns), parts)
        self.assertEqual(rollouts.bar(Rollout("a", 2, 1, 2, 1, False)), "##########!!!!!>>>>>          ")
        self.assertEqual(rollouts.bar(Rollout("a", 0, 0, 0, 0, False)), " " * 30)

    def test_attributes_that_are_texts(self):
        summary = summary_of(telling().split("\n")[:-2])
        self.assertTrue(summary.has_text("service.name", "collector") and summary.has_text("deployment", "test"))
        self.assertFalse(summary.has_text("ports", "[-1, false]") or summary.has_text("service.name", "") or summary.has_text("none", "x"))


class Beginning(WithFile):
    def test_at_one_server(self):
        server = self.server({**FLEET, LINE: "ok\n"})
        status, out, err = self.begin([server], "main", "2/1", self.path, "--yes")
        self.assertEqual((status, out, err), (0, f"the rollout main of {OFFERED} is begun at {server.name}\n", ""))
        self.assertEqual(server.lines[-1], LINE)

    def test_it_asks_first(self):
        server = self.server({**FLEET, LINE: "ok\n"})
        asks = f"begin the rollout main of {OFFERED} for 1 agents and those that come, 2 at a time, halted once more than 1 failed? [y/N] "
        self.assertEqual(self.begin([server], "main", "2/1", self.path), (11, "", "operator: where nobody can be asked this takes --yes\n"))
        self.assertEqual(self.begin([server], "main", "2/1", self.path, says="\n"), (11, "", asks + "operator: nothing was done\n"))
        self.assertNotIn(LINE, server.lines)
        self.assertEqual(self.begin([server], "main", "2/1", self.path, says="y\n")[::2], (0, asks))
        self.assertEqual(server.lines[-1], LINE)

    def test_its_line(self):
        where, other = self.file("where", b""), self.file("b", b"\xff")
        for words, line in [
            (("a", "50/3", self.path, "--where", "zone=a=b"), "rollout a 50/3 where zone=a=b agent.yaml text/yaml 6b3a2076"),
            (("a", "50/3", self.path, "--where", "zone="), "rollout a 50/3 where zone= agent.yaml text/yaml 6b3a2076"),
            (("a", "1/0", self.path, "--name", "-", "--type", "-"), "rollout a 1/0 - - 6b3a2076"),
            (("a", "1/0", where, other), "rollout a 1/0 b - ff where - -"),
            (("a", "1/0", where, "--where", "zone=a"), "rollout a 1/0 where zone=a where - -"),
            (("a", "18446744073709551615/18446744073709551614", other), "rollout a 18446744073709551615/18446744073709551614 b - ff"),
        ]:
            with self.subTest(words):
                server = self.server({**FLEET, line: "ok\n"})
                self.assertEqual(self.begin([server], *words, "--yes")[0], 0)
                self.assertEqual(server.lines[-1], line)

    def test_words(self):
        server = self.server(FLEET)
        for words, why in [
            (("a.b", "1/0", self.path), "'a.b' is no name of a rollout: it has 1 to 64 letters, digits, `-` and `_`"),
            (("m\u00e4in", "1/0", self.path), "'m\u00e4in' is no name of a rollout: it has 1 to 64 letters, digits, `-` and `_`"),
            (("a", "1/0", self.path, self.path), "two files have one name: an agent has a file under each name"),
            (("a", "1/0", self.path, "--where", "a=b", "--where", "c=d"), "a rollout takes one --where"),
            (("a", "1/0", self.path, "--where", "a=b c"), "the attribute 'a=b c' can't be said to a server: it is empty, or has a blank or a line's end"),
            (("a", "1/0", self.file("where", b"")), "a rollout's only file can't be called where, unless --where is given"),
            (("a", "1/0", self.path, "--seconds", "3"), "--seconds goes with --watch"),
        ]:
            with self.subTest(words):
                self.assertEqual(self.begin([server], *words, "--yes"), (2, "", f"operator: {why}\n"))
        for terms in ("1", "1/1", "0/0", "1/0/0", "/0", "1/", "+1/0", "18446744073709551616/0", "1/-1", "\u0661/0"):
            with self.subTest(terms), self.assertRaises(SystemExit) as ended, contextlib.redirect_stderr(io.StringIO()):
                self.begin([server], "a", terms, self.path)
            self.assertEqual(ended.exception.code, 2)
        self.assertEqual(server.lines, [])
        self.assertEqual(self.begin([server], "a", "1/0", self.folder + "/none")[0], 9)

    def test_who_would_join(self):
        server = RollingServer()
        self.addCleanup(server.close)
        for agent in (PlayedAgent(1, zone="a"), PlayedAgent(2, zone="b"), PlayedAgent(3, capabilities=ACCEPTS, zone="a"), PlayedAgent(4, zone="a")):
            agent.presence = "left" if agent.uid == uid_of(4) else "here"
            agent.report(server)
        status, out, _ = self.begin([server], "main", "2/1", self.path, "--where", "zone=a", "--dry-run", "--watch")
        self.assertEqual((status, out), (0, f"{uid_of(1)} would join\n1 would join, 2 at a time, halted once more than 1 failed\n"))
        self.assertEqual(server.rolling, {})
        self.assertEqual(self.begin([server], "main", "2/1", self.path, "--where", "zone=a", "--yes")[0], 0)
        self.assertEqual(self.run_operator([server], "rollout", "members", "main", "--brief"),
                         (0, f"AGENT                                 OFFER\n{uid_of(1)}  offered\n", ""))

    def test_refusals(self):
        many = "".join(f"r{at} waiting 0 offered 0 applied 0 failed 0\n" for at in range(16)) + "end\n"
        for answers, why in [
            ({"rollouts": MAIN + "\nend\n"}, "the server at {} has a rollout main already; nothing was begun"),
            ({"rollouts": many}, "the server at {} has 16 rollouts, and takes no more: finish one; nothing was begun"),
            ({"rollouts": "refused: words\n"}, "the server at {} is of a former version, which has no rollouts by lines; nothing was begun"),
            ({LINE: "refused: rollout there\n"}, "the server at {} refused: rollout there"),
            ({LINE: "refused: too many rollouts\n"}, "the server at {} refused: too many rollouts"),
            ({LINE: "refused: too large\n"}, "the server at {} refused: too large"),
            ({LINE: "refused: no memory\n"}, "the server at {} refused: no memory"),
        ]:
            with self.subTest(why):
                server = self.server({**FLEET, **answers})
                self.assertEqual(self.begin([server], "main", "2/1", self.path, "--yes"), (4, "", f"operator: {why.format(server.name)}\n"))

    def test_at_several_servers(self):
        servers = [self.server({**FLEET, LINE: "ok\n"}), self.server({"list": "end\n", "rollouts": "end\n", LINE: "ok\n"})]
        asks = (f"begin the rollout main of {OFFERED} for 1 agents and those that come, "
                "2 at a time at each of 2 servers, halted there once more than 1 failed? [y/N] ")
        status, out, err = self.begin(servers, "main", "2/1", self.path, says="y\n")
        self.assertEqual((status, out, err), (0, "".join(f"the rollout main of {OFFERED} is begun at {server.name}\n" for server in servers), asks))
        self.assertEqual([server.lines[-1] for server in servers], [LINE, LINE])

    def test_none_is_told_where_one_can_not_be_asked(self):
        first, nobody = self.server({**FLEET, LINE: "ok\n"}), self.nobody()
        self.assertEqual(self.begin([first, nobody], "main", "2/1", self.path, "--yes"),
                         (3, "", f"operator: no server at {nobody}: connection refused; nothing was begun\n"))
        second = self.server({"list": "end\n", "rollouts": MAIN + "\nend\n"})
        self.assertEqual(self.begin([first, second], "main", "2/1", self.path, "--yes")[0], 4)
        self.assertNotIn(LINE, first.lines)

    def test_one_of_several_that_refuses(self):
        servers = [self.server({**FLEET, LINE: "refused: no memory\n"}), self.server({"list": "end\n", "rollouts": "end\n", LINE: "ok\n"})]
        status, out, err = self.begin(servers, "main", "2/1", self.path, "--yes")
        self.assertEqual((status, out), (4, f"the rollout main of {OFFERED} is begun at {servers[1].name}\n"))
        self.assertEqual(err, f"operator: the server at {servers[0].name} refused: no memory\noperator: begun at 1 of 2 servers\n")

    def test_agents_of_other_rollouts_are_told(self):
        two = MAIN.replace("main", "canary") + "\nover waiting 0 offered 0 applied 1 failed 0\nend\n"
        for fate, told in (("waiting", True), ("offered", True), ("applied", False), ("failed", False)):
            server = self.server({**FLEET, "rollouts": two, "members canary": f"{OTHER} waiting\n{UID} {fate}\nend\n", LINE: "ok\n"})
            said = f"operator: 1 of the agents wait for the offer of the rollout canary at {server.name}, or have it: of two offers the last one counts\n"
            self.assertEqual(self.begin([server], "main", "2/1", self.path, "--yes")[::2], (0, said if told else ""))
            self.assertNotIn("members over", server.lines)

    def test_agents_that_report_elsewhere_are_told(self):
        first = self.server({"list": LISTED, "rollouts": "end\n", LINE: "ok\n"})
        second = self.server({**FLEET, LINE: "ok\n"})
        status, _, err = self.begin([first, second], "main", "2/1", self.path, "--yes")
        self.assertEqual((status, err), (0, f"operator: {first.name} still holds 1 agents that report to another server: they may join there, "
                                            "and keep places of the width until they are forgotten there\n"))


class Looking(WithFile):
    TWO = MAIN + "\nnorth waiting 0 offered 0 applied 3 failed 2 halted\nend\n"

    def test_list(self):
        server = self.server({"rollouts": self.TWO})
        self.assertEqual(self.run_operator([server], "rollout", "list"), (0, """ROLLOUT  STATE    WAITING  OFFERED  APPLIED  FAILED
main     goes on  12       2        31       1
north    halted   0        0        3        2
""", ""))
        self.assertEqual(server.lines, ["rollouts"])
        self.assertEqual(self.run_operator([server], "rollout", "list", "north")[1].count("\n"), 2)
        self.assertEqual(self.run_operator([server], "rollout", "list", "south"), (5, "", "operator: there is no rollout south\n"))
        self.assertEqual(self.run_operator([self.server({"rollouts": "end\n"})], "rollout", "list"), (0, "there is no rollout\n", ""))

    def test_list_json(self):
        server = self.server({"rollouts": self.TWO})
        self.assertEqual(json.loads(self.run_operator([server], "rollout", "list", "--json")[1]), [
            {"id": "main", "server": server.name, "state": "goes on", "waiting": 12, "offered": 2, "applied": 31, "failed": 1},
            {"id": "north", "server": server.name, "state": "halted", "waiting": 0, "offered": 0, "applied": 3, "failed": 2},
        ])

    def test_list_of_several_servers(self):
        first, second, nobody = self.server({"rollouts": self.TWO}), self.server({"rollouts": MAIN + "\nend\n"}), self.nobody()
        status, out, err = self.run_operator([first, second, nobody], "rollout", "list")
        self.assertEqual((status, [line.split()[-1] for line in out.strip().split("\n")]), (0, ["SERVER", first.name, first.name, second.name]))
        self.assertEqual(err, f"operator: no server at {nobody}: connection refused\n")
        self.assertEqual(self.run_operator([first, nobody], "rollout", "list", "south")[2].split("\n")[1],
                         "operator: there is no rollout south; a server that didn't answer may hold it")
        self.assertEqual(self.run_operator([nobody], "rollout", "list")[0], 3)
        former = self.server({})
        self.assertEqual(self.run_operator([former], "rollout", "list"),
                         (4, "", f"operator: the server at {former.name} is of a former version, which has no rollouts by lines\n"))

    def test_members(self):
        hosted = SHOWN.replace("agent_description = {}", 'agent_description.non_identifying_attributes[0].key = "host.name"\n'
                               'agent_description.non_identifying_attributes[0].value.string_value = "web-17"')
        server = self.server({**FLEET, f"show {OTHER}": hosted, f"show {UID}": telling("ab", 3, "bad \\x1b name"), "rollouts": MAIN + "\nend\n",
                              "ages": AGES, "members main": f"{OTHER} waiting\n{UID} failed\n{LEFT} applied\nend\n"})
        self.assertEqual(self.run_operator([server], "rollout", "members", "main"), (0, f"""AGENT                                 HOST    OFFER    STATE  HEALTH     AGE  ERROR
{OTHER}  web-17  waiting  here   unknown    7m!  -
{UID}  -       failed   here   healthy    42s  bad \\u001b name
{LEFT}  -       applied  left   unhealthy  3h   -
""", ""))
        self.assertEqual(self.run_operator([server], "rollout", "members", "main", "--only", "failed")[1].count("\n"), 2)
        told = json.loads(self.run_operator([server], "rollout", "members", "main", "--json", "--only", "waiting")[1])
        self.assertEqual(told, [{"uid": OTHER, "server": server.name, "offer": "waiting", "host": "web-17", "state": "here", "health": "unknown", "age": 430,
                                 "error": ""}])
        server.lines.clear()
        self.assertEqual(self.run_operator([server], "rollout", "members", "main", "--brief")[1].split("\n")[2], f"{UID}  failed")
        self.assertEqual(server.lines, ["rollouts", "members main"])
        self.assertEqual(self.run_operator([server], "rollout", "members", "south"), (5, "", "operator: there is no rollout south\n"))
        self.assertEqual(self.run_operator([server], "rollout", "members", "a.b")[0], 2)


class Steering(WithFile):
    SAID = {"halt": "is halted", "resume": "goes on", "finish": "is taken away"}

    def test_at_one_server(self):
        for verb, done in self.SAID.items():
            server = self.server({f"{verb} main": "ok\n", f"{verb} north": "refused: no rollout\n"})
            self.assertEqual(self.run_operator([server], "rollout", verb, "main"), (0, f"the rollout main {done} at {server.name}\n", ""))
            self.assertEqual(self.run_operator([server], "rollout", verb, "north"), (5, "", "operator: there is no rollout north\n"))
            self.assertEqual(self.run_operator([server], "rollout", verb, "main main")[0], 2)
            self.assertEqual(self.run_operator([self.nobody()], "rollout", verb, "main")[0], 3)
            self.assertEqual(server.lines, [f"{verb} main", f"{verb} north"])

    def test_at_several_servers(self):
        for verb, done in self.SAID.items():
            first, second, third = (self.server({f"{verb} main": answer}) for answer in ("ok\n", "refused: no rollout\n", "ok\n"))
            self.assertEqual(self.run_operator([first, second, third], "rollout", verb, "main"),
                             (0, "".join(f"the rollout main {done} at {server.name}\n" for server in (first, third)), ""))

    def test_one_that_may_go_on(self):
        first, nobody, second = self.server({"halt main": "ok\n"}), self.nobody(), self.server({"halt main": "refused: no rollout\n"})
        why = f"operator: no server at {nobody}: connection refused\noperator: 1 of 2 servers may hold the rollout main as it was\n"
        self.assertEqual(self.run_operator([first, nobody], "rollout", "halt", "main"), (3, f"the rollout main is halted at {first.name}\n", why))
        self.assertEqual(self.run_operator([second, nobody], "rollout", "halt", "main"), (3, "", why))


class Forgetting(WithFile):
    def test_an_agent(self):
        server = self.server({**FLEET, f"forget {LEFT}": ["ok\n", UNKNOWN]})
        self.assertEqual(self.run_operator([server], "forget", "9020"), (0, f"{LEFT} is forgotten at {server.name}\n", ""))
        self.assertEqual(self.run_operator([server], "forget", "9020")[0], 5)
        self.assertEqual(self.run_operator([server], "forget", "902"), (2, "", "operator: an order takes at least 4 signs of an identifier, or KEY=VALUE\n"))
        self.assertEqual(self.run_operator([server], "forget", "0001")[0], 6)
        self.assertEqual(self.run_operator([server], "forget", "ffff")[0], 5)
        self.assertEqual(self.run_operator([server], "forget", "9020", "--dry-run")[0], 2)
        for words in ([], ["9020", "--left"]):
            with self.assertRaises(SystemExit), contextlib.redirect_stderr(io.StringIO()):
                self.run_operator([server], "forget", *words)

    def test_an_agent_that_several_servers_hold(self):
        first = self.server({"list": LISTED, f"forget {UID}": "ok\n"})
        second = self.server({**FLEET, f"forget {UID}": "ok\n"})
        self.assertEqual(self.run_operator([first, second], "forget", UID)[:2],
                         (0, f"{UID} is forgotten at {second.name}\n{UID} is forgotten at {first.name}\n"))
        self.assertEqual(first.lines[-1], f"forget {UID}")

    def test_all_that_have_left(self):
        server = self.server({**FLEET, "forget left": "ok\n"})
        asks = "forget the 1 agents that have left? [y/N] "
        self.assertEqual(self.run_operator([server], "forget", "--left"), (11, "", "operator: where nobody can be asked this takes --yes\n"))
        self.assertEqual(self.run_operator([server], "forget", "--left", says="n\n"), (11, "", asks + "operator: nothing was done\n"))
        self.assertEqual(self.run_operator([server], "forget", "--left", "--dry-run"), (0, f"{LEFT} would be forgotten at {server.name}\n1 would be forgotten\n", ""))
        self.assertNotIn("forget left", server.lines)
        self.assertEqual(self.run_operator([server], "forget", "--left", "--yes"), (0, f"those that have left are forgotten at {server.name}: 1\n", ""))
        none = self.server({"list": LISTED})
        self.assertEqual(self.run_operator([none], "forget", "--left", "--yes"), (0, "no agent has left\n", ""))
        self.assertEqual(none.lines, ["list"])

    def test_at_several_servers(self):
        # Of the agent that two hold one is told that it left; the other one has it here, by a higher number.
        first = self.server({"list": f"{UID} 1 left healthy\nend\n", "forget left": None})
        second = self.server({**FLEET, "forget left": "ok\n"})
        status, out, err = self.run_operator([first, second], "forget", "--left", "--yes")
        self.assertEqual((status, out), (3, f"those that have left are forgotten at {second.name}: 1\n"))
        self.assertEqual(err.split("\n")[-2], "operator: not all that have left are forgotten")


class Screen(io.StringIO):
    """A terminal of 100 columns and 6 rows."""

    def isatty(self):
        return True

    def fileno(self):
        return 1


class Following(WithFile):
    def follow(self, servers, ids=("main",), seconds=0.0, out=None):
        """Follows with pauses that take no time."""
        self.out, self.err = out or io.StringIO(), io.StringIO()
        fleet = Fleet([Session(Address.read(getattr(server, "name", server)), 5.0) for server in servers])
        self.addCleanup(fleet.close)
        with unittest.mock.patch("os.get_terminal_size", lambda _: os.terminal_size((100, 6))):
            rollouts.follow_rollouts(Desk(fleet, self.out, self.err, io.StringIO()), ids, seconds, lambda _: None)

    def lines(self):
        return [re.sub("^[0-9]{2}:[0-9]{2}:[0-9]{2}  ", "", line) for line in self.out.getvalue().strip("\n").split("\n")]

    def told(self, *steps):
        return ["end\n" if step is None else f"main {step}\nend\n" for step in steps]

    def test_plain_lines_tell_what_is_new(self):
        steps = ["waiting 1 offered 1 applied 0 failed 0", "waiting 1 offered 1 applied 0 failed 0", "waiting 0 offered 1 applied 1 failed 0",
                 "waiting 0 offered 0 applied 2 failed 0"]
        self.follow([self.server({"rollouts": self.told(*steps)})])
        self.assertEqual(self.lines(), [f"main {steps[at]}" for at in (0, 2, 3)])

    def test_one_that_nobody_joined_goes_on(self):
        self.follow([self.server({"rollouts": self.told("waiting 0 offered 0 applied 0 failed 0", "waiting 0 offered 0 applied 1 failed 0")})])
        self.assertEqual(len(self.lines()), 2)

    def test_how_it_ends(self):
        server = self.server({"rollouts": self.told("waiting 9 offered 0 applied 2 failed 1 halted")})
        with self.assertRaisesRegex(OfferFailed, f"halted: main at {server.name}; 1 agents failed"):
            self.follow([server])
        with self.assertRaisesRegex(OfferFailed, "^2 agents failed$"):
            self.follow([self.server({"rollouts": self.told("waiting 0 offered 0 applied 1 failed 2")})])
        with self.assertRaisesRegex(TimeOver, "not over within 0.001 seconds: main waiting 1 offered 0 applied 0 failed 0"):
            self.follow([self.server({"rollouts": self.told("waiting 1 offered 0 applied 0 failed 0")})], seconds=0.001)
        with self.assertRaisesRegex(NoSuchRollout, "there is no rollout main"):
            self.follow([self.server({"rollouts": "end\n"})])
        with self.assertRaisesRegex(TimeOver, "not over within 1 seconds: no server that answers holds it"):
            self.follow([self.server({"rollouts": [*self.told("waiting 1 offered 0 applied 0 failed 0"), None]})], seconds=1.0)

    def test_by_the_program(self):
        halted = self.server({**FLEET, LINE: "ok\n", "rollouts": ["end\n", "main waiting 0 offered 0 applied 0 failed 2 halted\nend\n"]})
        status, out, err = self.begin([halted], "main", "2/1", self.path, "--yes", "--watch")
        self.assertEqual((status, err), (8, f"operator: halted: main at {halted.name}; 2 agents failed\n"))
        self.assertTrue(out.endswith("  main waiting 0 offered 0 applied 0 failed 2 halted\n"))
        over = self.server({"rollouts": self.told("waiting 0 offered 0 applied 2 failed 0"), "resume main": "ok\n"})
        for words in (["list", "--watch"], ["list", "main", "--watch"], ["resume", "main", "--watch"]):
            self.assertEqual(self.run_operator([over], "rollout", *words)[0], 0)
        self.assertEqual(self.run_operator([over], "rollout", "list", "--watch", "--json")[0], 2)
        self.assertEqual(self.run_operator([over], "rollout", "list", "--seconds", "3")[0], 2)
        self.assertEqual(self.run_operator([self.server({"rollouts": "end\n"})], "rollout", "list", "--watch"), (0, "there is no rollout\n", ""))
        slow = self.server({"rollouts": self.told("waiting 1 offered 0 applied 0 failed 0")})
        self.assertEqual(self.run_operator([slow], "rollout", "list", "--watch", "--seconds", "0.1")[0], 7)
        self.assertEqual(self.run_operator([self.nobody()], "rollout", "list", "--watch")[0], 3)
        with unittest.mock.patch("gisavelom_operator.rollouts.look", side_effect=KeyboardInterrupt):
            self.assertEqual(self.run_operator([slow], "rollout", "list", "--watch")[0], 130)

    def test_one_that_is_gone(self):
        server = self.server({"rollouts": self.told("waiting 1 offered 0 applied 0 failed 0", None)})
        with self.assertRaisesRegex(NoSuchRollout, "main isn't there any more at 1 of 1 servers"):
            self.follow([server])
        self.assertEqual(self.err.getvalue(), f"operator: main isn't there any more at {server.name}: it was finished, or the server began anew\n")
        self.follow([self.server({"rollouts": self.told("waiting 1 offered 0 applied 0 failed 0", None)})], ids=())  # all that are there

    def test_a_server_that_is_silent_for_a_while_is_waited_for(self):
        going, over = self.told("waiting 1 offered 0 applied 0 failed 0", "waiting 0 offered 0 applied 1 failed 0")
        first, second = self.server({"rollouts": [going, None, None, over]}), self.server({"rollouts": [over]})
        self.follow([first, second])
        self.assertEqual(self.lines()[-1], f"main waiting 0 offered 0 applied 1 failed 0 at {first.name}")
        self.assertEqual(self.err.getvalue().count("ended the connection"), 1)

    def test_on_a_terminal(self):
        steps = ["waiting 2 offered 2 applied 0 failed 0", "waiting 0 offered 0 applied 4 failed 0"]
        self.follow([self.server({"rollouts": self.told(*steps)})], out=Screen())
        first, second = (line + "\x1b[K\x1b[J\n" for line in (
            "main  [" + ">" * 15 + " " * 15 + "]  0 of 4 applied, 2 offered, 2 wait, 0 failed", "main  [" + "#" * 30 + "]  4 of 4 applied, 0 offered, 0 wait, 0 failed"))
        self.assertEqual(self.out.getvalue(), first + "\x1b[1A" + second)

    def test_more_than_a_terminal_has_lines(self):
        going, over = ("".join(f"r{at} waiting {count} offered 0 applied {1 - count} failed 0\n" for at in range(9)) + "end\n" for count in (1, 0))
        self.follow([self.server({"rollouts": [going, over]})], ids=(), out=Screen())
        drawn = self.out.getvalue().split("\x1b[4A")
        self.assertEqual([len(part.strip("\n").split("\n")) for part in drawn], [4, 4])
        self.assertIn(".. and 6 more", drawn[1])


class Together(WithFile):
    """The program, servers with rollouts, and agents that report."""

    def setUp(self):
        super().setUp()
        self.servers = [RollingServer(), RollingServer()]
        self.agents = [[PlayedAgent(at + 10 * number, zone="a" if at % 2 else "b") for at in range(1, 9)] for number in (0, 1)]
        for server, agents in zip(self.servers, self.agents):
            self.addCleanup(server.close)
            for agent in agents:
                agent.report(server)

    def report(self, rounds):
        most = 0
        for _ in range(rounds):
            for server, agents in zip(self.servers, self.agents):
                for agent in agents:
                    agent.report(server)
                    most = max([most, *(waves.count("offered") + waves.failed() for waves in server.rolling.values())])
        return most

    def begin_and_watch(self, *words):
        ran = []
        thread = threading.Thread(target=lambda: ran.append(self.begin(self.servers, "main", *words, "--yes", "--watch", "--seconds", "30")))
        with unittest.mock.patch("gisavelom_operator.rollouts.PAUSE", 0.05):
            thread.start()
            while thread.is_alive() and not all(server.rolling for server in self.servers):
                thread.join(0.01)
            self.most = self.report(12)
            thread.join(60)
        return ran[0]

    def test_it_ends_well(self):
        status, out, err = self.begin_and_watch("2/1", self.path)
        self.assertEqual((status, err, self.most), (0, "", 2))
        self.assertEqual({agent.files["agent.yaml"] for agents in self.agents for agent in agents}, {b"k: v"})
        for server in self.servers:
            self.assertIn(f"  main waiting 0 offered 0 applied 8 failed 0 at {server.name}\n", out)

    def test_it_halts_where_too_many_fail_and_is_resumed(self):
        for agent in self.agents[1]:
            agent.refuses = b"k: v"
        status, _, err = self.begin_and_watch("2/1", self.path)
        self.assertEqual((status, err), (8, f"operator: halted: main at {self.servers[1].name}; 2 agents failed\n"))
        table = self.run_operator(self.servers, "rollout", "list")[1].split("\n")
        self.assertEqual([line.split()[1:] for line in table[1:3]], [["over", "0", "0", "8", "0", self.servers[0].name],
                                                                    ["halted", "6", "0", "0", "2", self.servers[1].name]])
        out = self.run_operator(self.servers, "rollout", "members", "main", "--only", "failed")[1]
        self.assertEqual(out.count("bad \\u001b words"), 2)
        self.assertEqual(self.run_operator(self.servers, "rollout", "resume", "main")[0], 0)
        self.report(3)
        self.assertEqual([waves.line("main") for waves in self.servers[1].rolling.values()], ["main waiting 4 offered 0 applied 0 failed 4 halted\n"])
        self.assertEqual(self.run_operator(self.servers, "rollout", "finish", "main")[0], 0)
        self.assertEqual(self.run_operator(self.servers, "rollout", "list")[1], "there is no rollout\n")

    def test_some_agents_alone(self):
        self.assertEqual(self.begin_and_watch("3/0", "--where", "zone=a", self.path)[0], 0)
        self.assertEqual([bool(agent.files) for agent in self.agents[0]], [True, False] * 4)

    def test_one_that_is_forgotten_leaves(self):
        self.begin(self.servers, "main", "1/0", self.path, "--yes")
        self.assertEqual(self.run_operator(self.servers, "forget", uid_of(1))[0], 0)
        self.assertEqual(self.run_operator(self.servers, "show", uid_of(1))[0], 5)
        self.assertNotIn(uid_of(1), self.run_operator(self.servers, "rollout", "members", "main")[1])


if __name__ == "__main__":
    unittest.main()
