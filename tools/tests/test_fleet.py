"""Several servers as one fleet, and what is asked of them."""
import unittest

from scripted import LEFT, OTHER, SHOWN, UID, UNKNOWN, WithServers, telling
from gisavelom_operator.fleet import REFRESH, Fleet, compact, matching
from gisavelom_operator.lines import Address, Session
from gisavelom_operator.problems import NoServer, NoSuchAgent, SeveralAgents


class Fleets(WithServers):
    def fleet(self, *servers):
        self.now = 0.0
        addresses = [Address.read(getattr(server, "name", server)) for server in servers]
        fleet = Fleet([Session(address, 5.0) for address in addresses], lambda: self.now)
        self.addCleanup(fleet.close)
        return fleet

    def test_the_highest_number_is_shown(self):
        first = self.server({"list": f"{UID} 7 here healthy\n{LEFT} 2 left unknown\nend\n", f"show {UID}": telling(), f"show {LEFT}": SHOWN})
        listed = f"{UID} 5 left unhealthy\n{OTHER} 1 here healthy\n{LEFT} 3 here healthy\nend\n"
        second = self.server({"list": listed, f"show {OTHER}": SHOWN, f"show {LEFT}": SHOWN})
        view = self.fleet(first, second).look()
        self.assertEqual([(agent.uid, agent.listed.number, str(agent.server)) for agent in view.agents],
                         [(UID, 7, first.name), (OTHER, 1, second.name), (LEFT, 3, second.name)])
        self.assertEqual(first.lines, ["list", f"show {UID}"])
        self.assertEqual(second.lines, ["list", f"show {OTHER}", f"show {LEFT}"])
        self.assertEqual(view.silent, ())

    def test_equal_numbers(self):
        servers = [self.server({"list": f"{UID} 1 here healthy\nend\n", f"show {UID}": SHOWN}) for _ in range(2)]
        agent, = self.fleet(*servers).look().agents
        self.assertEqual(str(agent.server), servers[0].name)

    def test_a_server_that_is_not_there(self):
        nobody, server = self.nobody(), self.server({"list": f"{UID} 1 here healthy\nend\n", f"show {UID}": SHOWN})
        view = self.fleet(nobody, server).look()
        self.assertEqual(len(view.agents), 1)
        (address, why), = view.silent
        self.assertEqual((str(address), str(why)), (nobody, f"no server at {nobody}: connection refused"))
        view.need_a_server()

    def test_no_server_at_all(self):
        view = self.fleet(self.nobody(), self.nobody()).look()
        with self.assertRaises(NoServer):
            view.need_a_server()

    def test_only_what_changed_is_asked_again(self):
        both = f"{UID} 1 here healthy\n{OTHER} 1 here healthy\nend\n"
        server = self.server({
            "list": [both, both, f"{UID} 2 here healthy\n{OTHER} 1 here healthy\nend\n"],
            f"show {UID}": [SHOWN, telling()],
            f"show {OTHER}": SHOWN,
        })
        fleet = self.fleet(server)
        fleet.look()
        fleet.look()
        self.assertEqual(server.lines, ["list", f"show {UID}", f"show {OTHER}", "list"])
        view = fleet.look()
        self.assertEqual(server.lines[4:], ["list", f"show {UID}"])
        self.assertEqual(view.agents[0].summary.attribute("service.name"), "collector")
        self.now = REFRESH
        fleet.look()
        self.assertEqual(server.lines[6:], ["list", f"show {UID}", f"show {OTHER}"])

    def test_since_when_no_report_was_seen(self):
        lists = [f"{UID} {number} here healthy\nend\n" for number in (1, 1, 2)]
        server = self.server({"list": [lists[0], lists[1], "end\n", lists[1], lists[2]], f"show {UID}": SHOWN})
        fleet, found = self.fleet(server), []
        for self.now in (10.0, 20.0, 30.0, 40.0, 50.0):
            found.append([agent.since for agent in fleet.look().agents])
        self.assertEqual(found, [[10.0], [10.0], [], [40.0], [50.0]])

    def test_an_agent_that_can_not_be_shown(self):
        server = self.server({"list": f"{UID} 1 here healthy\n{OTHER} 1 here healthy\nend\n", f"show {UID}": None, f"show {OTHER}": UNKNOWN})
        view = self.fleet(server).look()
        self.assertEqual([agent.summary for agent in view.agents], [None, None])
        self.assertEqual(view.silent, ())

    def test_a_server_that_goes_on_with_its_list_alone(self):
        server = self.server({"list": f"{UID} 1 here healthy\nend\n", f"show {UID}": "no line\n\nend\n"})
        view = self.fleet(server).look()
        view.need_a_server()
        self.assertEqual([(agent.uid, agent.summary) for agent in view.agents], [(UID, None)])
        self.assertEqual(len(view.silent), 1)

    def test_without_summaries(self):
        server = self.server({"list": f"{UID} 1 here healthy\nend\n"})
        self.assertEqual(self.fleet(server).look(summaries=False).agents[0].summary, None)
        self.assertEqual(server.lines, ["list"])

    def test_beginnings(self):
        server = self.server({"list": f"{UID} 1 here healthy\n{OTHER} 1 here healthy\n{LEFT} 2 left unknown\nend\n"})
        view = self.fleet(server).look(summaries=False)
        for word in ["9", "902044dd-8", "902044DD8230", LEFT, LEFT.upper(), f"{{{LEFT}}}", f"urn:uuid:{LEFT}", LEFT.replace("-", "")]:
            self.assertEqual(view.found(word).uid, LEFT, word)
        self.assertEqual(view.found("00010203-f").uid, OTHER)
        with self.assertRaisesRegex(SeveralAgents, f"2 agents' identifiers begin with 0001: {UID}, {OTHER}"):
            view.found("0001")
        for word in ["1", "902044dd-9", "", "-", LEFT + "0"]:
            with self.subTest(word), self.assertRaises(NoSuchAgent):
                view.found(word)

    def test_matching(self):
        server = self.server({"list": f"{UID} 1 here healthy\n{OTHER} 1 here healthy\nend\n", f"show {UID}": telling(), f"show {OTHER}": SHOWN})
        agents = self.fleet(server).look().agents
        for where, found in [([("service.name", "collector")], [UID]), ([("service.name", "collector"), ("deployment", "test")], [UID]),
                             ([("service.name", "collect")], []), ([("service.name", "collector"), ("deployment", "x")], [])]:
            self.assertEqual([agent.uid for agent in matching(agents, where)], found)

    def test_compact(self):
        self.assertEqual(compact("{0001-AB}"), "0001ab")


if __name__ == "__main__":
    unittest.main()
