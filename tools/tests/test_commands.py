"""The program as it is called: words, what it writes, and how it ends."""
import contextlib
import hashlib
import io
import json
import os
import tempfile
import unittest

from scripted import AGES, CONFIG, CONFIG_MESSAGE, COUNT, LEFT, LISTED, OTHER, SHOWN, UID, UNKNOWN, WithServers, telling
from gisavelom_operator import commands
from gisavelom_operator.commands import Desk, Listing, Wanted, wait_for, wait_for_each, watch_agents
from gisavelom_operator.fleet import Fleet
from gisavelom_operator.lines import Address, Session

HASH = hashlib.sha256(CONFIG_MESSAGE).hexdigest()
THREE = f"{UID} 7 here healthy\n{OTHER} 1 here unknown\n{LEFT} 300 left unhealthy\nend\n"
FLEET = {"list": THREE, f"show {UID}": telling(), f"show {OTHER}": SHOWN, f"show {LEFT}": telling()}  # of a server that knows neither `ages` nor `count`
AGED = {**FLEET, "ages": AGES}


class WithFiles(WithServers):
    def file(self, name, content):
        folder = tempfile.TemporaryDirectory()
        self.addCleanup(folder.cleanup)
        path = os.path.join(folder.name, name)
        with open(path, "wb") as file:
            file.write(content)
        return path


class Looking(WithFiles):
    def test_list(self):
        status, out, err = self.run_operator([self.server(AGED)], "list")
        self.assertEqual((status, err), (0, ""))
        self.assertEqual(out.split("\n"), [
            "AGENT                                 HOST  SERVICE    VERSION  STATE  HEALTH     REPORT  AGE  CONFIGURATION  PACKAGES",
            f"{UID}  -     collector  0.98.0   here   healthy    7       42s  applied        1 failed",
            f"{OTHER}  -     -          -        here   unknown    1       7m!  -              -",
            f"{LEFT}  -     collector  0.98.0   left   unhealthy  300     3h   applied        1 failed",
            "",
        ])

    def test_list_brief_asks_for_no_agent(self):
        server = self.server(AGED)
        status, out, _ = self.run_operator([server], "list", "--brief")
        self.assertEqual((status, server.lines), (0, ["list", "ages"]))
        self.assertEqual(out.split("\n")[1], f"{UID}  here   healthy    7       42s")

    def test_ages(self):
        def listed(*words):
            status, out, _ = self.run_operator([self.server(AGED)], "list", *words)
            return status, [line.split()[0] for line in out.strip().split("\n")[1:]]

        self.assertEqual(listed("--sort", "age"), (0, [LEFT, OTHER, UID]))
        self.assertEqual(listed("--older", "43"), (0, [OTHER, LEFT]))
        self.assertEqual(listed("--older", "42", "--state", "here", "--sort", "age", "--brief"), (0, [OTHER, UID]))
        self.assertEqual(listed("--state", "left"), (0, [LEFT]))
        told = json.loads(self.run_operator([self.server(AGED)], "list", "--json")[1])
        self.assertEqual([(agent["age"], agent["connection"]) for agent in told], [(42, "open"), (430, "closed"), (11000, "http")])
        self.assertIn("here, healthy, report 7, 42s ago over WebSocket\n", self.run_operator([self.server(AGED)], "show", UID)[1])

    def test_an_agent_of_which_no_age_is_told(self):
        server = self.server({**AGED, "ages": f"{OTHER} 86400 http\nend\n"})
        _, out, _ = self.run_operator([server], "list", "--sort", "age", "--brief")
        self.assertEqual([line.split()[::4] for line in out.strip().split("\n")[1:]], [[OTHER, "1d"], [UID, "-"], [LEFT, "-"]])
        _, out, err = self.run_operator([server], "list", "--older", "0", "--brief")
        self.assertEqual(([line.split()[0] for line in out.strip().split("\n")], err), (["AGENT", OTHER], ""))

    def test_a_server_that_tells_no_ages(self):
        server = self.server(FLEET)
        status, out, err = self.run_operator([server], "list", "--sort", "age")
        self.assertEqual((status, err, [line.split()[7] for line in out.strip().split("\n")]), (0, "", ["AGE", "-", "-", "-"]))
        self.assertEqual([agent["age"] for agent in json.loads(self.run_operator([server], "list", "--json")[1])], [None] * 3)
        status, out, err = self.run_operator([server, self.server({"list": "end\n", "ages": "end\n"})], "list", "--older", "1")
        self.assertEqual((status, len(out.strip().split("\n"))), (0, 1))
        self.assertEqual(err, f"operator: the server at {server.name} is of a former version, which tells no ages: its agents aren't listed\n")

    def test_count(self):
        first, former, nobody = self.server({**FLEET, "count": COUNT}), self.server(FLEET), self.nobody()
        status, out, err = self.run_operator([first, former, nobody], "count")
        self.assertEqual((status, err), (0, f"operator: no server at {nobody}: connection refused\n"))
        self.assertEqual([line.split() for line in out.strip().split("\n")], [
            ["SERVER", "AGENTS", "HERE", "HEALTHY", "UNHEALTHY", "CONNECTIONS", "REPORTS", "ORDERS", "ROLLOUTS"],
            [first.name, "3", "2", "1", "1", "4", "18446744073709551615", "2", "1"],
            [former.name, *"--------"], [nobody, *"--------"]])
        self.assertEqual(first.lines, ["count"])
        told = json.loads(self.run_operator([first, former], "count", "--json")[1])
        self.assertEqual([(each["server"], each["agents"], each["reports"]) for each in told], [(first.name, 3, 2**64 - 1), (former.name, None, None)])
        self.assertEqual(self.run_operator([nobody], "count")[0], 3)
        for answer in ("agents 3\nend\n", "agents x\nend\n", COUNT.replace("orders 2", "orders -2")):
            self.assertEqual(self.run_operator([self.server({"count": answer})], "count")[0], 10, answer)
        self.assertEqual(self.run_operator([self.server({"count": "more 1\n" + COUNT})], "count")[0], 0)

    def test_list_of_several_servers(self):
        first, second, nobody = self.server({"list": LISTED, f"show {UID}": SHOWN}), self.server(FLEET), self.nobody()
        status, out, err = self.run_operator([first, second, nobody], "list")
        self.assertEqual(status, 0)
        self.assertEqual([line.split()[-1] for line in out.strip().split("\n")], ["SERVER", second.name, second.name, second.name])
        self.assertEqual(err, f"operator: no server at {nobody}: connection refused\n")

    def test_list_where(self):
        status, out, _ = self.run_operator([self.server(FLEET)], "list", "--where", "service.name=collector")
        self.assertEqual([line.split()[0] for line in out.strip().split("\n")], ["AGENT", UID, LEFT])
        status, _, err = self.run_operator([self.server(FLEET)], "list", "--brief", "--where", "a=b")
        self.assertEqual((status, err), (2, "operator: --where looks at attributes, which --brief doesn't ask for\n"))

    def test_list_by_health_and_in_an_order(self):
        def listed(*words):
            status, out, _ = self.run_operator([self.server(FLEET)], "list", *words)
            return status, [line.split()[0] for line in out.strip().split("\n")[1:]]

        self.assertEqual(listed("--health", "unhealthy"), (0, [LEFT]))
        self.assertEqual(listed("--health", "healthy", "--brief"), (0, [UID]))
        self.assertEqual(listed("--sort", "report"), (0, [OTHER, UID, LEFT]))
        self.assertEqual(listed("--sort", "service"), (0, [OTHER, UID, LEFT]))
        status, _, err = self.run_operator([self.server(FLEET)], "list", "--brief", "--sort", "host")
        self.assertEqual((status, err), (2, "operator: --sort host looks at what --brief doesn't ask for\n"))

    def test_list_json(self):
        _, out, _ = self.run_operator([self.server(FLEET)], "list", "--json")
        told = json.loads(out)
        self.assertEqual([agent["uid"] for agent in told], [UID, OTHER, LEFT])
        self.assertEqual(told[0]["service"], {"name": "collector", "version": "0.98.0"})
        self.assertEqual(told[0]["configuration"], {"status": "applied", "hash": "abcd", "error": ""})
        tool = {"name": "tool", "status": "failed", "version": "1.2", "offered_version": "1.3", "error": "fetch fault"}
        self.assertEqual(told[0]["packages"]["packages"], [tool])

    SAID = SHOWN.replace("agent_description = {}", 'agent_description.identifying_attributes[0].key = "service.name"\n'
                             'agent_description.identifying_attributes[0].value.string_value = "\\x1b[2J\u009b31m\u202eevil\\nname"')

    def test_words_of_agents_are_no_terminal_words(self):
        server = self.server({"list": LISTED, f"show {UID}": self.SAID})
        for words in (["list"], ["show", UID], ["list", "--json"]):
            _, out, _ = self.run_operator([server], *words)
            self.assertFalse({"\x1b", "\u009b", "\u202e"} & set(out), words)
        said = telling(HASH, 3, "\\x1b[2Jbad\u202ename")
        _, _, err = self.run_operator([self.server({"list": LISTED, f"show {UID}": said})], "wait", UID, "applied", "--hash", HASH, "--seconds", "0")
        self.assertEqual(err, "operator: the agent says that the offer failed: \\u001b[2Jbad\\u202ename\n")

    def test_words_of_agents_in_the_table(self):
        server = self.server({"list": LISTED, f"show {UID}": self.SAID})
        self.assertIn("\\u001b[2J\\u009b31m\\u202eevil\\u000aname", self.run_operator([server], "list")[1])

    def test_wide_letters_are_aligned(self):
        said = SHOWN.replace("agent_description = {}", 'agent_description.identifying_attributes[0].key = "service.name"\n'
                             'agent_description.identifying_attributes[0].value.string_value = "\u65e5\u672c"')
        _, out, _ = self.run_operator([self.server({"list": LISTED, f"show {UID}": said})], "list")
        self.assertIn(f"{UID}  -     \u65e5\u672c     -        here", out)

    CAPABILITIES = ("ReportsStatus", "AcceptsRemoteConfig", "ReportsEffectiveConfig", "AcceptsPackages", "ReportsPackageStatuses",
                    "AcceptsOpAMPConnectionSettings", "AcceptsRestartCommand", "ReportsHealth", "ReportsRemoteConfig")

    def test_show(self):
        server = self.server(FLEET)
        status, out, err = self.run_operator([server], "show", "00010203-0")
        self.assertEqual((status, err), (0, ""))
        self.assertEqual(out, f"""agent          {UID}
server         {server.name}
state          here, healthy, report 7
capabilities   {', '.join(self.CAPABILITIES)}
custom         com.example.echo
configuration  applied, of abcd
packages       1 failed

identifying attributes
  service.name     collector
  service.version  0.98.0

other attributes
  deployment  test
  ports       [-1, false]

health
  agent: healthy, running, since 2023-11-14 22:13:20 UTC
    pipeline: unhealthy
    pipeline x: healthy

package statuses
  tool 1.2, failed, offered 1.3, fetch fault

effective configuration: agent.yaml (text/yaml, 4 bytes)
  k: v
""")

    def test_show_lines_and_json(self):
        server = self.server({"list": LISTED, f"show {UID}": SHOWN})
        self.assertEqual(self.run_operator([server], "show", "--lines", UID), (0, SHOWN[:-len("end\n")], ""))
        told = json.loads(self.run_operator([self.server(FLEET)], "show", "--json", UID)[1])
        self.assertEqual(told["effective_configuration"], [{"name": "agent.yaml", "type": "text/yaml", "bytes": 4, "text": "k: v"}])
        self.assertEqual(told["health_tree"]["parts"]["pipeline x"]["healthy"], True)

    def test_watch(self):
        server = self.server({"list": [LISTED, LISTED, "end\n", LISTED], f"show {UID}": SHOWN})
        out, pauses = io.StringIO(), []

        def pause(seconds):
            pauses.append(seconds)
            if len(pauses) == 3:
                raise KeyboardInterrupt

        fleet = Fleet([Session(Address.read(server.name), 5.0)])
        self.addCleanup(fleet.close)
        with self.assertRaises(KeyboardInterrupt):
            watch_agents(Desk(fleet, out, io.StringIO(), io.StringIO()), Listing(), pause)
        counts = [line.split("  ")[1] for line in out.getvalue().split("\n") if "agents," in line]
        self.assertEqual(counts, [f"{number} agents, {number} here, 0 left, 0 here and unhealthy" for number in (1, 0, 1)])
        self.assertEqual([line.split()[-1] for line in out.getvalue().split("\n") if line.startswith("AGENT")], ["SILENT"] * 3)
        self.assertEqual([line.split()[-1] for line in out.getvalue().split("\n") if line.startswith(UID)], ["0s"] * 2)

    def test_watch_where_the_server_tells_ages(self):
        server = self.server({"list": LISTED, f"show {UID}": SHOWN, "ages": ["end\n", f"{UID} 0 open\nend\n", f"{UID} 1 closed\nend\n"]})
        out, pauses = io.StringIO(), []

        def pause(seconds):
            pauses.append(seconds)
            if len(pauses) == 2:
                raise KeyboardInterrupt

        fleet = Fleet([Session(Address.read(server.name), 5.0)])
        self.addCleanup(fleet.close)
        with self.assertRaises(KeyboardInterrupt):
            watch_agents(Desk(fleet, out, io.StringIO(), io.StringIO()), Listing(), pause)
        self.assertNotIn("SILENT", out.getvalue())
        self.assertEqual([line.split()[7] for line in out.getvalue().split("\n") if line.startswith(UID)], ["0s", "1s!"])


class Ordering(WithFiles):
    def test_config(self):
        server = self.server({**FLEET, CONFIG: "ok\n"})
        status, out, err = self.run_operator([server], "config", "00010203-04", self.file("agent.yaml", b"k: v"))
        self.assertEqual((status, err), (0, ""))
        self.assertEqual(out, f"{UID} is offered agent.yaml (text/yaml, 4 bytes), hash {HASH}\n")
        self.assertEqual(server.lines[-1], CONFIG)

    def test_config_by_other_names(self):
        server = self.server({**FLEET, f"config {UID} f - -": "ok\n", f"config {UID} x.json application/json 00ff": "ok\n"})
        self.assertEqual(self.run_operator([server], "config", UID, self.file("empty", b""), "--name", "f")[0], 0)
        self.assertEqual(self.run_operator([server], "config", UID, self.file("y.yaml", b"\0\xff"), "--name", "x.json")[0], 0)
        self.assertEqual(self.run_operator([server], "config", UID, self.file("f.yaml", b""), "--name", "f", "--type", "-")[0], 0)

    def test_config_that_an_agent_does_not_take(self):
        server = self.server({"list": LISTED, f"show {UID}": SHOWN, CONFIG: "ok\n"})
        status, _, err = self.run_operator([server], "config", UID, self.file("agent.yaml", b"k: v"))
        self.assertEqual(status, 0)
        self.assertEqual(err, "operator: the agent's capabilities lack AcceptsRemoteConfig: nothing is sent to it until they have it\n")

    def test_config_words(self):
        path = self.file("agent.yaml", b"k: v")
        server = self.server(FLEET)
        unsaid = "can't be said to a server: it is empty, or has a blank or a line's end"
        for words, why in [
            ((UID,), "config takes UID and FILE; or --all or --where and FILE"),
            ((UID, path, path), "two files have one name: an agent has a file under each name"),
            (("--all", path, path), "two files have one name: an agent has a file under each name"),
            ((UID, path, self.file("b", b""), "--name", "f"), "--name goes with one FILE"),
            (("--all", "--where", "a=b", path), "--all and --where exclude each other"),
            ((UID, path, "--name", "two words"), f"the name 'two words' {unsaid}"),
            ((UID, path, "--type", "text/yaml; charset=utf-8"), f"the type 'text/yaml; charset=utf-8' {unsaid}"),
            ((UID, path, "--name", "a\nstop"), f"the name 'a\\nstop' {unsaid}"),
        ]:
            with self.subTest(words):
                self.assertEqual(self.run_operator([server], "config", *words), (2, "", f"operator: {why}\n"))
        self.assertEqual(server.lines, [])

    def test_config_goes_to_the_server_that_has_the_agent(self):
        first = self.server({"list": f"{UID} 3 here healthy\nend\n"})
        second = self.server({**FLEET, CONFIG: "ok\n"})
        status, _, _ = self.run_operator([first, second], "config", UID, self.file("agent.yaml", b"k: v"))
        self.assertEqual((status, first.lines, second.lines[-1]), (0, ["list"], CONFIG))

    def test_config_for_all(self):
        server = self.server({**FLEET, CONFIG: "ok\n"})
        status, out, err = self.run_operator([server], "config", "--yes", "--all", self.file("agent.yaml", b"k: v"))
        self.assertEqual((status, err), (0, ""))
        self.assertEqual(out.split("\n")[1:], ["1 offered, 0 not, 1 have left, 1 take no configurations", ""])

    def test_config_for_several_goes_on_behind_a_refusal(self):
        here = THREE.replace("left", "here")
        server = self.server({**FLEET, "list": here, CONFIG: "refused: no memory\n", CONFIG.replace(UID, LEFT): "ok\n"})
        status, out, err = self.run_operator([server], "config", "--yes", "--where", "service.name=collector", self.file("agent.yaml", b"k: v"))
        self.assertEqual(status, 4)
        self.assertEqual(out, f"{LEFT} is offered agent.yaml (text/yaml, 4 bytes), hash {HASH}\n"
                              "1 offered, 1 not, 0 have left, 0 take no configurations\n")
        self.assertEqual(err, f"operator: {UID}: the server at {server.name} refused: no memory\noperator: 1 of 2 orders weren't taken\n")

    def test_config_for_several_when_a_server_is_lost(self):
        here = THREE.replace("left", "here")
        server = self.server({**FLEET, "list": here, CONFIG: None})
        status, out, _ = self.run_operator([server], "config", "--yes", "--where", "service.name=collector", self.file("agent.yaml", b"k: v"))
        self.assertEqual((status, out), (3, "0 offered, 2 not, 0 have left, 0 take no configurations\n"))
        self.assertEqual(server.lines[-1], CONFIG)

    def test_config_for_all_that_is_dry(self):
        server = self.server(FLEET)
        status, out, err = self.run_operator([server], "config", "--all", "--dry-run", self.file("agent.yaml", b"k: v"))
        self.assertEqual((status, err), (0, ""))
        self.assertEqual(out, f"{UID} would be offered agent.yaml (text/yaml, 4 bytes), hash {HASH}\n"
                              "1 would be offered, 1 have left, 1 take no configurations\n")
        self.assertEqual([line for line in server.lines if line.startswith("config")], [])
        status, _, err = self.run_operator([server], "config", UID, self.file("agent.yaml", b"k: v"), "--dry-run")
        self.assertEqual((status, err), (2, "operator: --dry-run goes with --all or --where\n"))

    def test_a_name_that_agents_of_this_project_refuse(self):
        server = self.server({**FLEET, f"config {UID} ../x text/yaml 6b3a2076": "ok\n"})
        status, _, err = self.run_operator([server], "config", UID, self.file("agent.yaml", b"k: v"), "--name", "../x", "--type", "text/yaml")
        self.assertEqual((status, err), (0, "operator: agents of this project refuse the name '../x': "
                                            "a good one has 1 to 255 letters, digits, `.`, `_` or `-` and begins with no `.`\n"))

    def test_restart_of_each(self):
        able = telling().replace("end\n", "")
        server = self.server({"list": THREE.replace("left", "here"), f"show {UID}": able + "end\n", f"show {OTHER}": SHOWN, f"show {LEFT}": able + "end\n",
                              f"restart {UID}": "ok\n", f"restart {LEFT}": "refused: no memory\n"})
        status, out, err = self.run_operator([server], "restart", "service.name=collector", "--each", "--yes")
        self.assertEqual((status, out), (4, f"{UID} is told to restart with its next report\n1 told to restart, 1 not, 0 have left, 0 take no restarts\n"))
        self.assertIn("operator: 1 of 2 orders weren't taken\n", err)
        self.assertEqual(self.run_operator([server], "restart", "0001", "--each")[0], 11)
        status, out, _ = self.run_operator([server], "restart", "0001", "--each", "--dry-run")
        self.assertEqual(out, f"{UID} would be told to restart with its next report\n1 would be told to restart, 0 have left, 1 take no restarts\n")
        self.assertEqual(self.run_operator([server], "restart", "000", "--each")[0], 2)
        self.assertEqual(self.run_operator([server], "restart", "abcd", "--each")[0], 5)
        self.assertEqual(self.run_operator([server], "restart", UID, "--dry-run")[0], 2)

    def test_config_for_none(self):
        status, _, err = self.run_operator([self.server(FLEET)], "config", "--where", "service.name=x", self.file("agent.yaml", b"k: v"))
        self.assertEqual((status, err), (5, "operator: there is no such agent\n"))

    def test_packages(self):
        content = hashlib.sha256(b"#!/bin/sh\n").hexdigest()
        order = f"packages {UID} tool 1.2 http://h/tool {content} b 2 http://h/b {content}"
        server = self.server({**FLEET, order: "ok\n"})
        path = self.file("tool", b"#!/bin/sh\n")
        status, out, _ = self.run_operator([server], "packages", UID, "tool", "1.2", "http://h/tool", path, "b", "2", "http://h/b", path)
        self.assertEqual((status, server.lines[-1]), (0, order))
        # PackageAvailable and PackagesAvailable in canonical form, by hand: 2 version, 3 file (1 download_url, 2 content_hash), 4 hash
        messages = {}
        for name, front in [(b"b", "1201 32 1a2e 0a0a 687474703a2f2f682f62 1220"),
                            (b"tool", "1203 312e32 1a31 0a0d 687474703a2f2f682f746f6f6c 1220")]:
            message = bytes.fromhex(front + content)
            messages[name] = message + b"\x22\x20" + hashlib.sha256(message).digest()
        entries = [b"\x0a" + bytes([len(name)]) + name + b"\x12" + bytes([len(messages[name])]) + messages[name] for name in (b"b", b"tool")]
        self.assertEqual([len(entry) < 128 for entry in entries], [True, True])
        whole = b"".join(b"\x0a" + bytes([len(entry)]) + entry for entry in entries)
        self.assertEqual(out.split("\n")[-2], "hash " + hashlib.sha256(whole).hexdigest())

    def test_packages_words(self):
        status, _, err = self.run_operator([self.server(FLEET)], "packages", UID, "tool", "1.2", "http://h/tool")
        self.assertEqual((status, err), (2, "operator: packages are given as NAME VERSION URL FILE, once or more\n"))

    def test_config_of_several_files(self):
        order = f"config {UID} b.yaml text/yaml 32 a.txt text/plain -"
        server = self.server({**FLEET, order: "ok\n"})
        # AgentRemoteConfig in canonical form, by hand: the entries ascend by their keys, and a.txt is empty.
        entries = (
            b"\x0a\x15\x0a\x05a.txt\x12\x0c\x12\x0atext/plain" + b"\x0a\x18\x0a\x06b.yaml\x12\x0e\x0a\x012\x12\x09text/yaml")
        wanted = hashlib.sha256(b"\x0a" + bytes([len(entries)]) + entries).hexdigest()
        status, out, err = self.run_operator([server], "config", UID, self.file("b.yaml", b"2"), self.file("a.txt", b""))
        self.assertEqual((status, err), (0, ""))
        self.assertEqual(out, f"{UID} is offered b.yaml (text/yaml, 1 bytes), a.txt (text/plain, 0 bytes), hash {wanted}\n")
        self.assertEqual(server.lines[-1], order)

    def test_config_without_a_name(self):
        server = self.server({**FLEET, f"config {UID} - - 32": "ok\n"})
        status, out, _ = self.run_operator([server], "config", UID, self.file("x", b"2"), "--name", "-")
        self.assertEqual((status, out.split(",")[0]), (0, f"{UID} is offered the file without a name (no type"))

    def test_settings(self):
        whole = f"settings {UID} ws://h:1 30 Authorization:4265617265722078 Empty:-"
        server = self.server({**FLEET, whole: "ok\n", f"settings {UID} - 0": "ok\n", f"settings {UID} wss://h 0": "ok\n"})
        words = ("settings", UID, "--url", "ws://h:1", "--seconds", "30", "--header", "Authorization: Bearer x", "--header", "Empty:")
        said = f"{UID} is offered the endpoint ws://h:1, a report each 30 seconds, the headers Authorization, Empty\n"
        self.assertEqual(self.run_operator([server], *words), (0, said, ""))
        self.assertEqual(self.run_operator([server], "settings", UID), (0, f"{UID} is offered settings of nothing\n", ""))
        self.assertEqual(self.run_operator([server], "settings", UID, "--url", "wss://h")[0], 2)
        self.assertEqual(self.run_operator([server], "settings", UID, "--url", "wss://h", "--as-is")[0], 0)

    def test_waits_and_withdraw(self):
        waiting = "config 00ff\nconnection 01\nrestart\n"
        server = self.server({**FLEET, f"waits {UID}": [waiting + "end\n", "end\n"], f"withdraw {UID}": "ok\n"})
        self.assertEqual(self.run_operator([server], "waits", UID), (0, waiting, ""))
        self.assertEqual(self.run_operator([server], "withdraw", UID), (0, f"nothing waits for {UID} any more\n", ""))
        self.assertEqual(self.run_operator([server], "waits", UID), (0, f"nothing waits for {UID}\n", ""))
        self.assertEqual(self.run_operator([server], "withdraw", "000")[0], 2)

    def test_connect_restart_stop(self):
        server = self.server({**FLEET, f"connect {UID} ws://h:1": "ok\n", f"restart {UID}": "ok\n", "stop": "ok\n"})
        self.assertEqual(self.run_operator([server], "connect", UID, "ws://h:1"), (0, f"{UID} is offered the endpoint ws://h:1\n", ""))
        self.assertEqual(self.run_operator([server], "restart", UID), (0, f"{UID} is told to restart with its next report\n", ""))
        self.assertEqual(self.run_operator([server], "stop", "--yes"), (0, f"the server at {server.name} ends\n", ""))

    def test_what_is_for_many_asks_first(self):
        server = self.server({**FLEET, CONFIG: "ok\n", "stop": "ok\n"})
        path = self.file("agent.yaml", b"k: v")
        self.assertEqual(self.run_operator([server], "stop"), (11, "", "operator: where nobody can be asked this takes --yes\n"))
        asks = f"end the server at {server.name}? [y/N] "
        self.assertEqual(self.run_operator([server], "stop", says="n\n"), (11, "", asks + "operator: nothing was done\n"))
        self.assertEqual(self.run_operator([server], "stop", says=""), (11, "", asks + "operator: nothing was done\n"))
        self.assertEqual(server.lines, [])
        self.assertEqual(self.run_operator([server], "stop", says="y\n"), (0, f"the server at {server.name} ends\n", asks))
        status, out, err = self.run_operator([server], "config", "--all", path, says="yes\n")
        self.assertEqual((status, out.split("\n")[-2]), (0, "1 offered, 0 not, 1 have left, 1 take no configurations"))
        self.assertEqual(err, f"offer agent.yaml (text/yaml, 4 bytes), hash {HASH} to 1 agents? [y/N] ")
        server.lines.clear()
        self.assertEqual(self.run_operator([server], "config", "--all", path, says="\n")[0], 11)
        self.assertNotIn(CONFIG, server.lines)

    def test_an_order_takes_four_signs_or_an_attribute(self):
        server = self.server({**FLEET, f"restart {LEFT}": "ok\n", f"restart {UID}": "ok\n"})
        for short in ("9", "902", "90-2", "{902}"):
            status, _, err = self.run_operator([server], "restart", short)
            self.assertEqual((status, err), (2, "operator: an order takes at least 4 signs of an identifier, or KEY=VALUE\n"))
        self.assertEqual(self.run_operator([server], "restart", "9020")[0], 0)
        self.assertEqual(self.run_operator([server], "show", "902")[0], 0)
        several = f"operator: 2 agents told service.name=collector: {UID}, {LEFT}\n"
        self.assertEqual(self.run_operator([server], "restart", "service.name=collector"), (6, "", several))
        self.assertEqual(self.run_operator([server], "show", "a=b"), (5, "", "operator: no agent told a=b\n"))
        one = self.server({"list": LISTED, f"show {UID}": telling(), f"restart {UID}": "ok\n"})
        self.assertEqual(self.run_operator([one], "restart", "deployment=test"), (0, f"{UID} is told to restart with its next report\n", ""))
        self.assertEqual(self.run_operator([one], "wait", "service.name=collector", "healthy"), (0, f"{UID} is healthy\n", ""))

    def test_what_is_no_endpoint(self):
        server = self.server({**FLEET, f"connect {UID} wss://h/x": "ok\n", f"connect {UID} http://a.b:65535/v1": "ok\n"})
        for url in ("nonsense", "wss://h/x", "http://", "http://h:0", "http://h:65536", "http://h:", "http://h x", "ws://h/\u00e9", "ws://" + "h" * 254):
            with self.subTest(url):
                status, _, err = self.run_operator([server], "connect", UID, url)
                self.assertEqual((status, "is no endpoint" in err), (2, True))
        self.assertEqual(self.run_operator([server], "connect", UID, "http://a.b:65535/v1")[0], 0)
        self.assertEqual(self.run_operator([server], "connect", UID, "wss://h/x", "--as-is")[0], 0)

    def test_stop_of_several(self):
        servers = [self.server({"stop": "ok\n"}), self.server({"stop": "ok\n"})]
        status, _, err = self.run_operator(servers, "stop")
        self.assertEqual((status, err), (2, "operator: stop ends one server: give one --server\n"))
        self.assertEqual(servers[0].lines + servers[1].lines, [])


class Errors(WithFiles):
    def test_no_server(self):
        nobody = self.nobody()
        why = f"operator: no server at {nobody}: connection refused\n"
        for words in (["list"], ["list", "--watch"], ["show", UID], ["restart", UID], ["stop", "--yes"], ["wait", UID, "here"]):
            with self.subTest(words):
                self.assertEqual(self.run_operator([nobody], *words), (3, "", why))
        status, _, err = self.run_operator(["a..b:1"], "list")
        self.assertEqual((status, err), (3, "operator: no server at a..b:1: that is no host's name\n"))

    def test_refused(self):
        server = self.server({**FLEET, CONFIG: "refused: too large\n"})
        status, _, err = self.run_operator([server], "config", UID, self.file("agent.yaml", b"k: v"))
        self.assertEqual((status, err), (4, f"operator: the server at {server.name} refused: too large\n"))

    def test_no_such_agent(self):
        server = self.server({**FLEET, f"restart {UID}": UNKNOWN})
        for words in (["show", "abcd"], ["restart", "abcd"], ["wait", "abcd", "applied"], ["connect", "abcd", "ws://h"]):
            with self.subTest(words):
                self.assertEqual(self.run_operator([server], *words), (5, "", "operator: no agent's identifier is or begins with abcd\n"))
        self.assertEqual(self.run_operator([server], "restart", UID)[0], 5)
        nobody = self.nobody()
        self.assertIn("; a server that didn't answer may hold it", self.run_operator([server, nobody], "show", "abcd")[2])

    def test_several_agents(self):
        status, _, err = self.run_operator([self.server(FLEET)], "restart", "0001")
        self.assertEqual((status, err), (6, f"operator: 2 agents' identifiers begin with 0001: {UID}, {OTHER}\n"))

    def test_files(self):
        status, _, err = self.run_operator([self.server(FLEET)], "config", UID, "/nowhere/agent.yaml")
        self.assertEqual((status, err), (9, "operator: /nowhere/agent.yaml can't be read: no such file or directory\n"))
        status, _, err = self.run_operator([self.server(FLEET)], "metrics", "--file", "/nowhere/a.prom")
        self.assertEqual((status, err), (9, "operator: /nowhere/a.prom can't be written: no such file or directory\n"))

    def test_a_port_that_is_taken(self):
        server = self.server(FLEET)
        status, _, err = self.run_operator([server], "page", "--port", str(server.port))
        self.assertEqual((status, err), (9, f"operator: the page can't be served at 127.0.0.1:{server.port}: address already in use\n"))

    def test_another_protocol(self):
        server = self.server({"list": "HTTP/1.1 400 Bad Request\r\n"})
        status, _, err = self.run_operator([server], "list")
        self.assertEqual(status, 10)
        self.assertEqual(err, f"operator: what listens at {server.name} answers 'HTTP/1.1 400 Bad Request\\r': that is no port for operators\n")

    def test_words(self):
        path = self.file("agent.yaml", b"k: v")
        for words in (["--server", "x", "list"], ["wait", UID, "healthy", "--hash", "ab"], ["wait", UID, "installed", "--file", path],
                      ["wait", UID, "applied", "--file", path, "--name", "\udcff"], ["connect", UID, "a b"]):
            with self.subTest(words):
                self.assertEqual(self.run_operator([], *words)[0], 2)
        for words in ([], ["look"], ["--timeout", "0", "list"], ["wait", UID], ["wait", UID, "gone"], ["list", "--watch", "--json"],
                      ["wait", UID, "here", "--seconds", "x"], ["list", "--where", "x"]):
            with self.subTest(words), self.assertRaises(SystemExit) as ended, contextlib.redirect_stderr(io.StringIO()):
                self.run_operator([], *words)
            self.assertEqual(ended.exception.code, 2)


class Waiting(WithFiles):
    def wait(self, servers, wanted, beginning=UID, seconds=60.0):
        """Waits with pauses that take no time."""
        self.err, out = io.StringIO(), io.StringIO()
        fleet = Fleet([Session(Address.read(server.name), 5.0) for server in servers])
        self.addCleanup(fleet.close)
        wait_for(Desk(fleet, out, self.err, io.StringIO()), beginning, wanted, seconds, lambda _: None)
        return out.getvalue()

    def test_until_this_file_is_applied(self):
        shown = [telling("abcd", 1), telling(HASH, 2), telling(HASH, 1)]
        server = self.server({**FLEET, f"show {UID}": shown})
        self.assertEqual(self.wait([server], Wanted("applied", HASH)), f"{UID} is applied\n")
        self.assertEqual(server.lines.count(f"show {UID}"), 3)

    def test_by_the_program(self):
        server = self.server({**FLEET, f"show {UID}": telling(HASH, 1)})
        path = self.file("agent.yaml", b"k: v")
        self.assertEqual(self.run_operator([server], "wait", UID, "applied", "--file", path, "--seconds", "0")[0], 0)
        self.assertEqual(self.run_operator([server], "wait", UID, "applied", "--hash", HASH.upper(), "--seconds", "0")[0], 0)
        self.assertEqual(self.run_operator([server], "wait", UID, "applied", "--seconds", "0")[0], 0)
        self.assertEqual(self.run_operator([server], "wait", UID, "applied", "--hash", "abcd", "--seconds", "0")[0], 7)

    def test_what_failed(self):
        server = self.server({**FLEET, f"show {UID}": telling(HASH, 3, "bad name")})
        status, _, err = self.run_operator([server], "wait", UID, "applied", "--hash", HASH, "--seconds", "0")
        self.assertEqual((status, err), (8, "operator: the agent says that the offer failed: bad name\n"))

    def test_time_over(self):
        server = self.server(FLEET)
        status, _, err = self.run_operator([server], "wait", UID, "left", "--seconds", "0")
        self.assertEqual(status, 7)
        self.assertEqual(err, "operator: not left within 0 seconds: here, healthy, report 7, configuration applied, packages 1 failed\n")

    def test_an_agent_that_is_not_there_yet(self):
        server = self.server({**FLEET, "list": ["end\n", "end\n", THREE]})
        self.assertEqual(self.wait([server], Wanted("here")), f"{UID} is here\n")

    def test_a_server_that_starts_again(self):
        server = self.server({**FLEET, "list": [THREE, "end\n", None, None, THREE], f"show {UID}": [telling(), telling(HASH)]})
        self.assertEqual(self.wait([server], Wanted("applied", HASH)), f"{UID} is applied\n")

    def test_an_agent_that_moves(self):
        first = self.server({"list": LISTED, f"show {UID}": SHOWN})
        second = self.server({"list": ["end\n", f"{UID} 2 here healthy\nend\n"], f"show {UID}": [telling(), telling(HASH)]})
        self.assertEqual(self.wait([first, second], Wanted("applied", HASH)), f"{UID} is applied\n")
        self.assertEqual(self.err.getvalue(), f"operator: {UID} reports to {second.name} now; "
                                              f"what {first.name} was told to offer has to be given again there\n")

    def test_an_agent_that_can_not_be_shown(self):
        server = self.server({**FLEET, f"show {UID}": None})
        self.assertEqual(self.run_operator([server], "wait", UID, "healthy", "--seconds", "0"), (0, f"{UID} is healthy\n", ""))
        self.assertEqual(self.run_operator([server], "wait", UID, "applied", "--seconds", "0"),
                         (7, "", "operator: not applied within 0 seconds: here, healthy, report 7\n"))
        self.assertEqual(self.run_operator([server], "show", UID)[0], 3)
        self.assertEqual(self.run_operator([self.server({**FLEET, f"show {UID}": None, f"restart {UID}": "ok\n"})], "restart", UID)[0], 0)

    def test_until_it_is_so_of_each(self):
        lists = [f"{UID} 1 here {one}\n{OTHER} 1 here {other}\nend\n" for one, other in (("healthy", "unhealthy"), ("unhealthy", "healthy"), ("healthy", "healthy"))]
        server = self.server({**FLEET, "list": ["end\n", *lists]})
        out = io.StringIO()
        fleet = Fleet([Session(Address.read(server.name), 5.0)])
        self.addCleanup(fleet.close)
        wait_for_each(Desk(fleet, out, io.StringIO(), io.StringIO()), "0001", Wanted("healthy"), 60.0, lambda _: None)
        self.assertEqual((out.getvalue(), server.lines.count("list")), ("2 agents are healthy\n", 4))
        self.assertEqual(self.run_operator([server], "wait", "0001", "applied", "--each", "--seconds", "0")[::2],
                         (7, "operator: not applied within 0 seconds: 1 of 2 agents\n"))
        nobody = self.nobody()
        status, _, err = self.run_operator([server, nobody], "wait", "0001", "healthy", "--each", "--seconds", "0")
        self.assertEqual((status, err), (7, f"operator: no server at {nobody}: connection refused\noperator: not healthy within 0 seconds: 0 of 2 agents\n"))
        server = self.server({**FLEET, f"show {LEFT}": telling(HASH, 3, "bad name")})
        self.assertEqual(self.run_operator([server], "wait", "service.name=collector", "applied", "--each", "--hash", HASH)[0], 8)

    def test_installed(self):
        packages = 'package_statuses.packages["tool"].status = %d\npackage_statuses.server_provided_all_packages_hash = hex 0a\nend\n'
        server = self.server({**FLEET, f"show {UID}": [SHOWN, packages % 4, "end\n", 'package_statuses.packages["tool"] = {}\nend\n']})
        self.assertEqual(self.wait([server], Wanted("installed")), f"{UID} is installed\n")
        server = self.server({**FLEET, f"show {UID}": packages % 3})
        self.assertEqual(self.run_operator([server], "wait", UID, "installed", "--hash", "0a")[0], 8)
        self.assertEqual(self.run_operator([server], "wait", UID, "installed", "--hash", "0b", "--seconds", "0")[0], 7)


class Metrics(WithFiles):
    # Prometheus, "Exposition formats"
    EXPECTED = """# HELP gisavelom_agents Agents that the servers hold, by whether they are here or left and by their health.
# TYPE gisavelom_agents gauge
gisavelom_agents{state="here",health="healthy"} 1
gisavelom_agents{state="here",health="unhealthy"} 0
gisavelom_agents{state="here",health="unknown"} 1
gisavelom_agents{state="left",health="healthy"} 0
gisavelom_agents{state="left",health="unhealthy"} 1
gisavelom_agents{state="left",health="unknown"} 0
# HELP gisavelom_configurations Agents by what they say of the configuration that was offered last.
# TYPE gisavelom_configurations gauge
gisavelom_configurations{status="none"} 1
gisavelom_configurations{status="unset"} 0
gisavelom_configurations{status="applied"} 1
gisavelom_configurations{status="applying"} 0
gisavelom_configurations{status="failed"} 1
# HELP gisavelom_applied_configurations Agents by the first twelve digits of the hash of the configuration that they applied.
# TYPE gisavelom_applied_configurations gauge
gisavelom_applied_configurations{hash="abcd"} 1
# HELP gisavelom_packages Packages of all agents by their status.
# TYPE gisavelom_packages gauge
gisavelom_packages{status="installed"} 0
gisavelom_packages{status="pending"} 0
gisavelom_packages{status="installing"} 0
gisavelom_packages{status="failed"} 2
gisavelom_packages{status="downloading"} 0
# HELP gisavelom_server_up Whether the server answered its operators' port.
# TYPE gisavelom_server_up gauge
"""
    COUNTED = """# HELP gisavelom_server_agents Agents that the server holds.
# TYPE gisavelom_server_agents gauge
gisavelom_server_agents{server="AT"} 3
# HELP gisavelom_server_agents_here Agents that the server holds and that haven't left.
# TYPE gisavelom_server_agents_here gauge
gisavelom_server_agents_here{server="AT"} 2
# HELP gisavelom_server_agents_healthy Agents that the server holds, and that are healthy.
# TYPE gisavelom_server_agents_healthy gauge
gisavelom_server_agents_healthy{server="AT"} 1
# HELP gisavelom_server_agents_unhealthy Agents that the server holds, and that are unhealthy.
# TYPE gisavelom_server_agents_unhealthy gauge
gisavelom_server_agents_unhealthy{server="AT"} 1
# HELP gisavelom_server_connections Connections that the server knows.
# TYPE gisavelom_server_connections gauge
gisavelom_server_connections{server="AT"} 4
# HELP gisavelom_server_reports_total Reports that the server took since its run began.
# TYPE gisavelom_server_reports_total counter
gisavelom_server_reports_total{server="AT"} 18446744073709551615
# HELP gisavelom_server_orders Offers that stand at the server.
# TYPE gisavelom_server_orders gauge
gisavelom_server_orders{server="AT"} 2
# HELP gisavelom_server_rollouts Rollouts that the server holds.
# TYPE gisavelom_server_rollouts gauge
gisavelom_server_rollouts{server="AT"} 1
"""

    def test_metrics(self):
        server, nobody = self.server({**FLEET, f"show {LEFT}": telling("ab", 3, "bad name")}), self.nobody()
        status, out, err = self.run_operator([server, nobody], "metrics")
        self.assertEqual(status, 0)
        self.assertEqual(out, self.EXPECTED + f'gisavelom_server_up{{server="{server.name}"}} 1\ngisavelom_server_up{{server="{nobody}"}} 0\n')
        self.assertEqual(err, f"operator: no server at {nobody}: connection refused\n")

    def test_what_servers_count_and_ages(self):
        server, former = self.server({**AGED, "count": COUNT}), self.server({"list": "end\n"})
        status, out, err = self.run_operator([server, former], "metrics", "--older", "60", "--older", "42")
        self.assertEqual((status, err), (0, ""))
        self.assertTrue(out.endswith(self.COUNTED.replace("AT", server.name)), out)
        # Of the three agents two are here, whose ages are 42 and 430.
        self.assertIn(f"""# HELP gisavelom_oldest_report_seconds How long ago the last report was taken of the agent that is here and silent for longest.
# TYPE gisavelom_oldest_report_seconds gauge
gisavelom_oldest_report_seconds{{server="{server.name}"}} 430
# HELP gisavelom_silent_agents Agents that are here and whose last report was taken so many seconds ago at least.
# TYPE gisavelom_silent_agents gauge
gisavelom_silent_agents{{server="{server.name}",seconds="42"}} 2
gisavelom_silent_agents{{server="{server.name}",seconds="60"}} 1
# HELP gisavelom_server_up""", out)
        self.assertNotIn("gisavelom_agent_configuration", out)

    def test_an_agent_counts_at_the_server_to_which_it_reports(self):
        servers = [self.server({"list": f"{UID} {number} here healthy\nend\n", f"show {UID}": SHOWN, "ages": f"{UID} {age} http\nend\n"})
                   for number, age in ((1, 9000), (2, 3))]
        out = self.run_operator(servers, "metrics", "--older", "60")[1]
        self.assertEqual([line for line in out.split("\n") if line.startswith(("gisavelom_oldest", "gisavelom_silent"))],
                         [f'gisavelom_oldest_report_seconds{{server="{servers[1].name}"}} 3',
                          *(f'gisavelom_silent_agents{{server="{server.name}",seconds="60"}} 0' for server in servers)])

    def test_the_configuration_of_each(self):
        server = self.server({**FLEET, f"show {LEFT}": telling("ab", 3, "bad name")})
        out = self.run_operator([server], "metrics", "--each")[1]
        self.assertEqual([line for line in out.split("\n") if line.startswith("gisavelom_agent_configuration")],
                         [f'gisavelom_agent_configuration{{agent="{UID}",server="{server.name}",status="applied",hash="abcd"}} 1',
                          f'gisavelom_agent_configuration{{agent="{LEFT}",server="{server.name}",status="failed",hash="ab"}} 1'])

    def test_into_a_file(self):
        path = self.file("fleet.prom", b"former")
        self.assertEqual(self.run_operator([self.server(FLEET)], "metrics", "--file", path), (0, "", ""))
        with open(path, encoding="utf-8") as file:
            self.assertIn('gisavelom_agents{state="here",health="healthy"} 1\n', file.read())
        self.assertEqual(os.listdir(os.path.dirname(path)), ["fleet.prom"])

    def test_no_server_is_told_too(self):
        nobody = self.nobody()
        status, out, _ = self.run_operator([nobody], "metrics")
        self.assertEqual(status, 3)
        self.assertIn(f'gisavelom_server_up{{server="{nobody}"}} 0\n', out)


class Terminal(unittest.TestCase):
    def test_a_screen_is_as_high_as_the_terminal(self):
        drawn, = commands._screen(os.terminal_size((20, 5)), [f"line {number} of some length" for number in range(9)])
        lines = drawn.split("\n")
        self.assertEqual(len(lines), 4)
        self.assertIn(".. and 6 more", lines[-1])
        self.assertIn("line 0 of some leng…", lines[0])


if __name__ == "__main__":
    unittest.main()
