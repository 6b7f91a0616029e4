"""The page: what it tells, and what it refuses."""
import base64
import hashlib
import http.client
import json
import socket
import threading
import time
import unittest
import unittest.mock

from scripted import AGES, CONFIG, CONFIG_MESSAGE, LEFT, OTHER, SHOWN, UID, WithServers, telling
from gisavelom_operator.fleet import Agent, Fleet
from gisavelom_operator.lines import Address, Listed, Session
from gisavelom_operator.page import LARGEST_FORM, LONGEST_BODY, Page, PageServer, row, sorting

HASH = hashlib.sha256(CONFIG_MESSAGE).hexdigest()
EVIL = "<script>alert(1)</script>"
THREE = f"{UID} 7 here healthy\n{OTHER} 18446744073709551615 here unknown\n{LEFT} 300 left unhealthy\nend\n"


def evil():
    """An agent whose words are HTML."""
    return SHOWN.replace("agent_description = {}", 'agent_description.identifying_attributes[0].key = "service.name"\n'
                         f'agent_description.identifying_attributes[0].value.string_value = "{EVIL}"')


FLEET = {"list": THREE, f"show {UID}": telling(), f"show {OTHER}": evil(), f"show {LEFT}": telling("ab", 3, "bad name")}


class Pages(WithServers):
    def serve(self, answers, *more):
        self.scripted = self.server(answers)
        fleet = Fleet([Session(Address.read(name), 5.0) for name in (self.scripted.name, *more)])
        self.page = PageServer(Page(fleet), 0)
        self.host = f"127.0.0.1:{self.page.server_port}"
        threading.Thread(target=self.page.serve_forever, daemon=True).start()
        for clean in (fleet.close, self.page.server_close, self.page.shutdown):
            self.addCleanup(clean)

    def ask(self, path, method="GET", body=None, headers=None):
        """The status, the headers and the body of the answer."""
        connection = http.client.HTTPConnection("127.0.0.1", self.page.server_port, timeout=10)
        self.addCleanup(connection.close)
        connection.putrequest(method, path, skip_host=True)
        for name, value in (headers if headers is not None else {"Host": self.host}).items():
            connection.putheader(name, value)
        connection.endheaders(body)
        answer = connection.getresponse()
        return answer.status, answer.headers, answer.read().decode()

    def told(self, path):
        status, _, body = self.ask(path)
        self.assertEqual(status, 200, body)
        return json.loads(body)

    def uids(self, query):
        return [row["uid"] for row in self.told("/data/fleet" + query)["rows"]]

    def offer(self, changed=None, **headers):
        form = {"uid": UID, "name": "agent.yaml", "type": "text/yaml", "content": base64.b64encode(b"k: v").decode(), **(changed or {})}
        body = json.dumps(form).encode()
        sent = {"Host": self.host, "Origin": f"http://{self.host}", "X-Operator-Token": self.page.token, "Content-Type": "application/json",
                "Content-Length": str(len(body)), **{name.replace("_", "-"): value for name, value in headers.items()}}
        status, _, told = self.ask("/data/config", "POST", body, {name: value for name, value in sent.items() if value is not None})
        return status, json.loads(told)


class Telling(Pages):
    def test_fleet(self):
        self.serve(FLEET)
        told = self.told("/data/fleet")
        self.assertEqual({name: told[name] for name in ("found", "agents", "here", "unhealthy", "failed", "problems")},
                         {"found": 3, "agents": 3, "here": 2, "unhealthy": 0, "failed": 1, "problems": []})
        self.assertEqual(told["rows"][0], {
            "uid": UID, "silent": "", "unheard": "0s", "host": "", "service": "collector", "version": "0.98.0", "state": "here", "health": "healthy", "number": "7",
            "age": "-", "configuration": "applied", "packages": "1 failed", "server": self.scripted.name,
        })
        self.assertEqual(told["rows"][1]["number"], "18446744073709551615")
        self.assertFalse(told["ages"])

    def test_ages(self):
        self.serve({**FLEET, "ages": AGES})
        told = self.told("/data/fleet?sort=age&order=down")
        self.assertTrue(told["ages"])
        self.assertEqual([(row["uid"], row["age"]) for row in told["rows"]], [(LEFT, "3h"), (OTHER, "7m!"), (UID, "42s")])
        self.assertEqual(self.uids("?sort=age"), [UID, OTHER, LEFT])
        self.assertEqual(self.uids("?search=42s"), [])
        told = self.told(f"/data/agent/{OTHER}")
        self.assertEqual((told["age"], told["connection"]), ("7m ago over a WebSocket that is closed", "closed"))

    def test_ages_that_a_silent_server_told_stay(self):
        self.serve({**FLEET, "ages": [AGES, None]})
        self.assertEqual([row["age"] for row in self.told("/data/fleet")["rows"]], ["42s", "7m!", "3h"])
        for _ in range(40):
            told = self.told("/data/fleet")
            if told["problems"]:
                break
            time.sleep(0.1)
        self.assertEqual((len(told["problems"]), [row["age"] for row in told["rows"]]), (1, ["42s", "7m!", "3h"]))

    def test_for_how_long_no_report_was_seen(self):
        moments = [1000.0]
        with unittest.mock.patch("gisavelom_operator.page.time.monotonic", lambda: moments[0]):
            agents = [Agent(Listed(UID, 7, "here", "healthy"), Address("h", 1), None, since) for since in (1000.0, 941.0, 940.0, 1000.0 - 7200, 1000.0 - 90_000)]
            self.assertEqual([row(agent)["unheard"] for agent in agents], ["0s", "59s", "1m", "2h", "1d"])
            self.assertEqual(sorted(reversed(agents), key=sorting("unheard")), agents)

    def test_what_a_silent_server_told_stays(self):
        self.serve({**FLEET, "list": [THREE, None]})
        self.assertEqual(len(self.told("/data/fleet")["rows"]), 3)
        for _ in range(40):
            told = self.told("/data/fleet")
            if told["problems"]:
                break
            time.sleep(0.1)
        self.assertEqual((told["agents"], [row["uid"] for row in told["rows"]]), (3, [UID, OTHER, LEFT]))
        self.assertTrue(all(row["silent"].isdigit() for row in told["rows"]))
        self.assertIn(self.scripted.name, told["problems"][0])

    def test_a_server_that_hangs_holds_up_nobody(self):
        silent = socket.create_server(("127.0.0.1", 0))
        self.addCleanup(silent.close)
        with unittest.mock.patch("gisavelom_operator.page.FIRST_LOOK", 0.5):
            self.serve(FLEET, f"127.0.0.1:{silent.getsockname()[1]}")
            began = time.monotonic()
            self.assertEqual(self.uids(""), [UID, OTHER, LEFT])
            self.assertEqual(self.told(f"/data/agent/{UID}")["uid"], UID)
            self.assertLess(time.monotonic() - began, 3)

    def test_search(self):
        self.serve(FLEET)
        for query, found in [("?search=902044", [LEFT]), ("?search=COLLECTOR", [UID, LEFT]), ("?search=deployment%3Dtest+left", [LEFT]),
                             ("?search=bad%20name", [LEFT]), ("?search=%3Cscript", [OTHER]), ("?search=nothing", []), ("?search=healthy", [UID]),
                             ("?search=unhealthy", [LEFT]), ("?search=here", [UID, OTHER]), ("?search=service.name%3Dcollect", []),
                             ("?search=service.name%3Dcollector", [UID, LEFT])]:
            with self.subTest(query):
                self.assertEqual(self.uids(query), found)

    def test_order(self):
        self.serve(FLEET)
        for query, found in [("", [UID, OTHER, LEFT]), ("?order=down", [LEFT, OTHER, UID]), ("?sort=number", [UID, LEFT, OTHER]),
                             ("?sort=service", [OTHER, UID, LEFT]), ("?sort=state&order=down", [LEFT, OTHER, UID]),
                             ("?from=1&count=1", [OTHER]), ("?from=9", [])]:
            with self.subTest(query):
                self.assertEqual(self.uids(query), found)
        for query in ("?sort=__class__", "?from=-1", "?count=x", "?from=9999999999", "?from=%C2%B2"):
            with self.subTest(query):
                self.assertEqual(self.ask("/data/fleet" + query)[0], 400)

    def test_agent(self):
        self.serve(FLEET)
        told = self.told(f"/data/agent/{UID}")
        self.assertEqual((told["service"]["name"], told["takes_configurations"], told["offer"]), ("collector", True, ""))
        self.assertEqual(told["effective_configuration"][0]["text"], "k: v")
        self.assertEqual(told["number"], "7")
        self.assertEqual(self.told(f"/data/agent/{OTHER}")["takes_configurations"], False)
        self.assertEqual(self.told(f"/data/agent/{UID}?offer=abcd")["offer"], "applied")
        self.assertEqual(self.told(f"/data/agent/{UID}?offer=ab")["offer"], "waiting")
        self.assertEqual(self.told(f"/data/agent/{LEFT}?offer=ab")["offer"], "failed")

    def test_a_large_file_is_cut(self):
        body = "effective_config.config_map.config_map[\"f\"].body = hex "
        shown = [f"{body}{byte * LONGEST_BODY}\nend\n" for byte in ("61", "ff")]
        self.serve({"list": f"{UID} 7 here healthy\nend\n", f"show {UID}": shown})
        file, = self.told(f"/data/agent/{UID}")["effective_configuration"]
        self.assertEqual((file["bytes"], len(file["hex"]), file["cut"]), (LONGEST_BODY, LONGEST_BODY, True))

    def test_problems(self):
        self.serve({**FLEET, f"show {UID}": ["refused: unknown agent\n"]}, self.nobody())
        self.assertEqual(len(self.told("/data/fleet")["problems"]), 1)
        for path, status in [("/data/agent/ff", 404), ("/data/agent/0", 409), (f"/data/agent/{UID}", 404), ("/nothing", 404), ("/data/fleet/x", 404),
                             ("/../page.py", 404), ("/static/page.js", 404), ("/data/agent/%2e%2e", 404)]:
            with self.subTest(path):
                code, headers, body = self.ask(path)
                self.assertEqual((code, headers["Content-Type"]), (status, "application/json"))
                self.assertTrue(json.loads(body)["problem"])


class Rollouts(Pages):
    TWO = "main waiting 1 offered 1 applied 0 failed 1\nnorth waiting 0 offered 0 applied 2 failed 0 halted\nend\n"
    MEMBERS = f"{OTHER} waiting\n{UID} offered\n{LEFT} failed\nend\n"

    def test_beside_the_fleet(self):
        self.serve({**FLEET, "rollouts": self.TWO})
        self.assertEqual(self.told("/data/fleet")["rollouts"], [
            {"id": "main", "server": self.scripted.name, "state": "goes on", "silent": "", "waiting": 1, "offered": 1, "applied": 0, "failed": 1},
            {"id": "north", "server": self.scripted.name, "state": "halted", "silent": "", "waiting": 0, "offered": 0, "applied": 2, "failed": 0},
        ])

    def test_a_server_without_rollouts(self):
        self.serve(FLEET)
        told = self.told("/data/fleet")
        self.assertEqual((told["rollouts"], told["problems"], told["agents"]), ([], [], 3))

    def test_what_a_silent_server_told_stays(self):
        self.serve({**FLEET, "list": [THREE, None], "rollouts": self.TWO})
        for _ in range(40):
            told = self.told("/data/fleet")
            if told["problems"]:
                break
            time.sleep(0.1)
        self.assertEqual([(each["id"], each["silent"].isdigit()) for each in told["rollouts"]], [("main", True), ("north", True)])

    def test_its_agents(self):
        self.serve({**FLEET, "ages": AGES, "rollouts": self.TWO, "members main": self.MEMBERS})
        at = f"/data/rollout/{self.scripted.name}/main"
        told = self.told(at)
        self.assertEqual({name: told[name] for name in ("id", "state", "waiting", "failed", "found", "from", "problems")},
                         {"id": "main", "state": "goes on", "waiting": 1, "failed": 1, "found": 3, "from": 0, "problems": []})
        self.assertEqual([(row["uid"], row["offer"]) for row in told["rows"]], [(OTHER, "waiting"), (UID, "offered"), (LEFT, "failed")])
        self.assertEqual(told["rows"][2], {"uid": LEFT, "offer": "failed", "error": "bad name", "host": "", "service": "collector", "state": "left",
                                           "health": "unhealthy", "age": "3h", "configuration": "failed"})
        self.assertEqual(told["rows"][0]["service"], EVIL)
        for query, found in [("?offer=failed", [LEFT]), ("?offer=applied", []), ("?from=1&count=1", [UID]), ("?from=9", [])]:
            self.assertEqual([row["uid"] for row in self.told(at + query)["rows"]], found)
        self.assertEqual(self.ask(at + "?offer=gone")[0], 400)

    def test_what_is_not_there(self):
        self.serve({**FLEET, "rollouts": self.TWO, "members main": "refused: no rollout\n"})
        for server, name in ((self.scripted.name, "south"), ("10.0.0.1:4322", "main"), (self.scripted.name, "main"), (self.scripted.name, "..")):
            status, _, body = self.ask(f"/data/rollout/{server}/{name}")
            self.assertEqual((status, bool(json.loads(body)["problem"])), (404, True))
        self.assertEqual(self.ask(f"/rollout/{self.scripted.name}/main")[0], 200)
        self.assertEqual(self.ask("/rollout/main")[0], 404)


class Guarding(Pages):
    def test_documents_have_no_word_of_an_agent(self):
        self.serve(FLEET)
        for path, kind in [("/", "html"), (f"/agent/{OTHER}", "html"), ("/agent/%3Cscript%3E", "html"), ("/page.js", "javascript"),
                           ("/rollout/alert/%3Cscript%3Ealert", "html"), ("/rollout.js", "javascript"), ("/fleet.js", "javascript"), ("/agent.js", "javascript"), ("/page.css", "css")]:
            with self.subTest(path):
                status, headers, body = self.ask(path)
                self.assertEqual((status, headers["Content-Type"]), (200, f"text/{kind}; charset=utf-8"))
                self.assertNotIn("alert", body)
                self.assertNotIn("innerHTML", body)
                self.assertNotIn("://", body)
        status, headers, body = self.ask(f"/data/agent/{OTHER}")
        self.assertEqual((headers["Content-Type"], headers["X-Content-Type-Options"]), ("application/json", "nosniff"))
        self.assertEqual(json.loads(body)["service"]["name"], EVIL)

    def test_policy(self):
        self.serve(FLEET)
        for path in ("/", "/data/fleet", "/nothing"):
            policy = self.ask(path)[1]["Content-Security-Policy"]
            parts = dict(part.strip().split(" ", 1) for part in policy.split(";"))
            self.assertEqual(parts["script-src"], "'self'")
            self.assertEqual([parts[name] for name in ("default-src", "base-uri", "frame-ancestors")], ["'none'"] * 3)

    def test_other_hosts(self):
        self.serve(FLEET)
        port = self.page.server_port
        for host in (None, "evil.example", f"evil.example:{port}", "127.0.0.1", f"127.0.0.1:{port + 1}", f"127.0.0.1:{port}.evil.example"):
            headers = {"Host": host} if host else {}
            with self.subTest(host):
                self.assertEqual(self.ask("/", headers=headers)[0], 421)
                self.assertEqual(self.ask("/data/fleet", headers=headers)[0], 421)
        self.assertEqual(self.ask("/", headers={"Host": f"localhost:{port}"})[0], 200)

    def test_it_listens_on_the_loopback_address_alone(self):
        self.serve(FLEET)
        self.assertEqual(self.page.server_address[0], "127.0.0.1")

    def test_token(self):
        self.serve(FLEET)
        self.assertIn(f'content="{self.page.token}"', self.ask(f"/agent/{UID}")[2])
        self.assertNotIn(self.page.token, self.ask("/")[2])
        self.assertGreater(len(self.page.token), 40)


class Offering(Pages):
    def test_an_offer(self):
        self.serve({**FLEET, CONFIG: "ok\n"})
        self.assertEqual(self.offer(), (200, {"hash": HASH, "server": self.scripted.name}))
        self.assertEqual(self.scripted.lines.count(CONFIG), 1)
        self.assertEqual(self.offer({"type": ""})[0], 200)  # the type of the name's ending

    def test_forms_that_are_not_the_page_s(self):
        self.serve({**FLEET, CONFIG: "ok\n"})
        for headers, status in [({"Origin": None}, 403), ({"Origin": "null"}, 403), ({"Origin": "http://evil.example"}, 403),
                                ({"Origin": f"https://{self.host}"}, 403), ({"Origin": f"http://localhost:{self.page.server_port}"}, 403),
                                ({"X_Operator_Token": None}, 403), ({"X_Operator_Token": "x"}, 403), ({"X_Operator_Token": "\u00fc"}, 403),
                                ({"Host": "evil.example", "Origin": "http://evil.example"}, 421),
                                ({"Content_Type": "text/plain"}, 415), ({"Content_Type": "application/x-www-form-urlencoded"}, 415),
                                ({"Content_Length": None}, 413), ({"Content_Length": str(LARGEST_FORM + 1)}, 413), ({"Content_Length": "-1"}, 413)]:
            with self.subTest(headers):
                self.assertEqual(self.offer(**headers)[0], status)
        self.assertNotIn(CONFIG, self.scripted.lines)

    def test_forms_that_are_none(self):
        self.serve({**FLEET, CONFIG: "ok\n"})
        for changed in ({"name": ""}, {"name": "a b"}, {"name": "a\nstop"}, {"type": "a b"}, {"content": "x"}, {"content": 7},
                        {"name": None}, {"uid": ["x"]}):
            with self.subTest(changed):
                self.assertEqual(self.offer(changed)[0], 400)
        self.assertEqual(self.offer({"uid": "ffff"})[0], 404)
        self.assertEqual(self.offer({"uid": "0001"})[0], 409)
        self.assertEqual(self.offer({"uid": "902"})[0], 400)
        self.assertEqual(self.offer({"name": "other"}), (409, {"problem": f"the server at {self.scripted.name} refused: words"}))
        body = b"[1]"
        headers = {"Host": self.host, "Origin": f"http://{self.host}", "X-Operator-Token": self.page.token,
                   "Content-Type": "application/json", "Content-Length": str(len(body))}
        self.assertEqual(self.ask("/data/config", "POST", body, headers)[0], 400)
        self.assertEqual(self.ask("/data/other", "POST", body, headers)[0], 404)
        self.assertNotIn(CONFIG, self.scripted.lines)


if __name__ == "__main__":
    import unittest

    unittest.main()
