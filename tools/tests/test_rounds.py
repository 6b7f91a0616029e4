"""What is ordered of a wanted state, over played servers and agents: rule by rule."""
import unittest

from played_fleet import ACCEPTS, TELLS_FILES, TELLS_STATUS, PlayedAgent, PlayedServer, uid_of
from scripted import WithServers
from gisavelom_operator.fleet import REFRESH, Fleet
from gisavelom_operator.lines import Address, Session
from gisavelom_operator.problems import NoServer, NotRight, Refused
from gisavelom_operator.rounds import ASKED_AGAIN, Rounds
from gisavelom_operator.wanted import read_wanted

FILES = {"good": b"good", "new": b"new", "bad": b"bad"}


class PlayedSource:
    """A source that says what it is told to."""

    def __init__(self, *lines):
        self.asked = 0
        self.changes_at = None  # the question at which something else is wanted
        self.says(*lines)

    def says(self, *lines):
        self.state, self.is_read, self.is_told = read_wanted({**FILES, "table": "\n".join(lines).encode()}), False, True

    def read(self):
        self.is_read, self.is_told = True, False
        return self.state

    def may_have_changed(self):
        return self.is_told

    def is_as_read(self):
        """Tells a change once, as a watch does that is looked at."""
        self.asked += 1
        if self.asked == self.changes_at:
            self.says("* new")
        self.is_told = False
        return self.is_read


class WithFleet(WithServers):
    def play(self, *lines, servers=1):
        self.now = 0.0
        self.servers = [PlayedServer() for _ in range(servers)]
        for server in self.servers:
            self.addCleanup(server.close)
        self.server, self.source = self.servers[0], PlayedSource(*lines)
        self.rounds = self.begin_again()

    def begin_again(self):
        """Another program over the same servers and source."""
        fleet = Fleet([Session(Address.read(server.name), 5.0) for server in self.servers], lambda: self.now)
        self.addCleanup(fleet.close)
        return Rounds(fleet, self.source, lambda: self.now)

    def agents(self, count, server=None, first=1, **attributes):
        agents = [PlayedAgent(first + at, **attributes) for at in range(count)]
        self.report(agents, server)
        return agents

    def report(self, agents, server=None):
        for agent in agents:
            agent.report(server or self.server)

    def order(self, rounds=None):
        """One round: the numbers of the agents that were ordered."""
        done = (rounds or self.rounds).order((rounds or self.rounds).look())
        self.assertEqual(done.problems, ())
        return [int(uid[:8], 16) for server in self.servers for uid in server.ordered()]

    def states(self):
        return [each.state for each in self.rounds.look().standings]


class Ordering(WithFleet):
    def test_what_differs_is_ordered_once(self):
        self.play("* good")
        agents = self.agents(3)
        self.assertEqual(self.states(), ["differs"] * 3)
        self.assertEqual(self.order(), [1, 2, 3])
        self.assertEqual(self.states(), ["offered"] * 3)
        self.assertEqual(self.order(), [])
        self.report(agents)
        self.report(agents)
        self.assertEqual(self.states(), ["applied"] * 3)
        self.assertEqual(self.order(), [])
        self.assertEqual([agent.files for agent in agents], [{"good": b"good"}] * 3)

    def test_the_first_line_counts(self):
        self.play("00000002 good", "role=x new", "00000003 alone")
        self.agents(2, role="x")
        self.agents(2, first=3)
        self.assertEqual(self.states(), ["differs", "differs", "alone", "unnamed"])
        self.order()
        self.assertEqual([[file.name for file in offer.files] for _, offer in sorted(self.server.standing.items())], [["new"], ["good"]])

    def test_who_is_not_ordered(self):
        self.play("* good")
        gone, unable = self.agents(2)
        gone.presence, unable.capabilities = "left", TELLS_STATUS
        self.report([gone, unable])
        self.assertEqual(self.states(), ["left", "unable"])
        self.assertEqual(self.order(), [])

    def test_one_that_failed_is_not_offered_it_again(self):
        self.play("* good")
        agent, = self.agents(1)
        agent.refuses = b"good"
        self.order()
        self.report([agent, agent])
        self.assertEqual([(each.state, each.told) for each in self.rounds.look().standings], [("failed", "bad \x1b words")])
        self.assertEqual(self.order(), [])
        self.assertEqual(self.order(self.begin_again()), [])
        self.source.says("* new")
        self.assertEqual(self.order(), [1])
        self.report([agent, agent])
        self.assertEqual(self.states(), ["applied"])

    def test_one_that_is_ill_with_it(self):
        self.play("* good")
        agent, = self.agents(1)
        agent.is_ill = b"good"
        self.order()
        self.report([agent, agent])
        self.assertEqual((self.states(), self.order()), (["ill"], []))
        agent.health = "healthy"
        self.report([agent])
        self.assertEqual(self.states(), ["applied"])

    def test_one_that_is_at_it(self):
        self.play("* good")
        agent, = self.agents(1)
        agent.is_slow = True
        self.order()
        self.report([agent, agent])
        self.assertEqual((self.states(), self.order()), (["offered"], []))

    def test_without_a_status_the_effective_configuration_tells(self):
        self.play("* good")
        agent, = self.agents(1, capabilities=ACCEPTS | TELLS_FILES)
        self.assertEqual((self.states(), self.order(), self.states()), (["differs"], [1], ["offered"]))
        self.report([agent, agent])
        self.assertEqual((self.states(), self.order()), (["applied"], []))
        agent.files = {"good": b"other"}
        self.report([agent])
        self.assertEqual(self.states(), ["offered"])

    def test_one_that_tells_nothing_is_ordered_once(self):
        self.play("* good")
        agent, = self.agents(1, capabilities=ACCEPTS)
        self.assertEqual(self.order(), [1])
        self.report([agent, agent])
        self.assertEqual((self.states(), self.order()), (["offered"], []))

    def test_what_was_ordered_by_hand_is_replaced(self):
        self.play("* good")
        agent, = self.agents(1)
        self.server.config(agent.uid, "x - 00")
        self.assertEqual((self.states(), self.order(), self.states()), (["differs"], [1], ["offered"]))

    def test_a_former_offer_is_taken_back_at_once(self):
        self.play("* good")
        agents = self.agents(3)
        self.order()
        self.report(agents)
        self.report(agents)
        self.source.says("* new")
        self.assertEqual(self.order(), [1, 2, 3])
        self.report(agents[:1])
        self.source.says("* good")
        self.assertEqual(self.states(), ["replaced"] * 3)  # what the first one took it tells with its next report
        self.assertEqual(self.order(), [1, 2, 3])
        self.assertEqual(self.states(), ["applied"] * 3)
        self.report(agents)
        self.assertEqual([len(agent.had) for agent in agents], [3, 1, 1])
        self.report(agents)
        self.assertEqual((self.states(), self.order()), (["applied"] * 3, []))

    def test_it_is_found_later_that_another_waits(self):
        self.play("* good")
        agents = self.agents(1)
        self.order()
        self.report(agents)
        self.report(agents)
        self.states()
        self.server.config(agents[0].uid, "x - 00")
        self.assertEqual(self.states(), ["applied"])
        self.now += REFRESH
        self.assertEqual((self.states(), self.order(), self.states()), (["replaced"], [1], ["applied"]))

    def test_a_server_that_lost_its_table(self):
        self.play("* good")
        agents = self.agents(2)
        self.order()
        self.report(agents[:1])
        self.server.records.clear()
        self.server.standing.clear()
        self.report(agents)
        self.assertEqual(self.states(), ["applied", "differs"])
        self.assertEqual(self.order(), [2])

    def test_a_new_agent_has_it_with_its_second_report(self):
        self.play("* good")
        self.assertEqual(self.order(), [])
        agents = self.agents(2)
        self.assertEqual(self.order(), [1, 2])
        self.report(agents)
        self.assertEqual([agent.files for agent in agents], [{"good": b"good"}] * 2)

    def test_only_what_may_have_changed_is_asked(self):
        self.play("* good")
        agents = self.agents(3)
        self.order()
        self.order()
        self.server.lines.clear()
        self.rounds.look()
        self.assertEqual(self.server.lines, ["list"])
        self.report(agents[1:2])
        self.rounds.look()
        self.assertEqual(self.server.lines[1:], ["list", f"show {uid_of(2)}", f"waits {uid_of(2)}"])


class Troubles(WithFleet):
    def test_a_refusal_does_not_stop_the_others(self):
        self.play("* good", servers=2)
        self.agents(1)
        self.agents(1, self.servers[1], 2)
        self.server.refusal = "no memory"
        done = self.rounds.order(self.rounds.look())
        (agent, why), = done.problems
        self.assertEqual((agent.uid, type(why), done.ordered), (uid_of(1), Refused, 1))
        self.assertEqual(self.states(), ["differs", "offered"])

    def test_a_connection_that_is_lost_among_orders(self):
        self.play("* good")
        self.agents(5)
        self.server.ends_at = 3
        done = self.rounds.order(self.rounds.look())
        self.assertEqual((done.ordered, len(done.problems)), (2, 3))
        self.server.ordered()
        self.assertEqual(self.states(), ["offered"] * 2 + ["differs"] * 3)
        self.assertEqual(self.order(), [3, 4, 5])

    def test_a_run_that_is_broken_off_is_begun_again(self):
        self.play("* good width 2 allowed 0")
        agents = self.agents(4)
        self.order()
        self.report(agents)
        self.report(agents[:1])
        self.rounds = None
        again = self.begin_again()
        self.assertEqual(self.order(again), [3])
        self.report(agents)
        self.report(agents)
        self.assertEqual(self.order(self.begin_again()), [4])

    def test_a_server_that_is_silent(self):
        self.play("* good", servers=2)
        self.agents(1)
        agents = self.agents(1, self.servers[1], 2)
        self.rounds.look()
        self.server.close()
        self.assertEqual([(each.agent.uid, each.state) for each in self.rounds.look().standings], [(uid_of(2), "differs")])
        self.assertEqual(self.order(), [2])
        self.report(agents, self.servers[1])
        self.servers[1].close()
        with self.assertRaises(NoServer):
            self.rounds.look()

    def test_nothing_is_ordered_without_a_wanted_state(self):
        self.play("* good")
        self.agents(1)
        self.source.read = lambda: read_wanted({})
        with self.assertRaises(NotRight):
            self.rounds.look()
        self.assertEqual(self.server.lines, [])

    def test_what_changes_before_the_orders_is_not_ordered(self):
        self.play("* good")
        self.agents(1)
        picture = self.rounds.look()
        self.source.says("* new")
        done = self.rounds.order(picture)
        self.assertEqual((done.ordered, done.is_whole, self.server.ordered()), (0, False, []))
        self.assertEqual(self.order(), [1])

    def test_what_changes_among_the_orders_ends_them(self):
        self.play("* good")
        self.agents(600)
        picture = self.rounds.look()
        steps = iter(range(10_000))
        self.rounds._clock = lambda: next(steps) * ASKED_AGAIN / 100
        self.source.changes_at = 3
        done = self.rounds.order(picture)
        self.assertFalse(done.is_whole)
        self.assertGreater(done.ordered, 50)
        self.assertLess(done.ordered, 400)
        self.server.ordered()
        self.assertEqual(len(self.order()), 600)


class Waves(WithFleet):
    def test_so_many_at_a_time(self):
        self.play("* good width 2 allowed 1")
        agents = self.agents(5)
        self.assertEqual(self.order(), [1, 2])
        self.assertEqual(self.order(), [])
        self.report(agents)
        self.report(agents[:1])
        self.assertEqual(self.order(), [3])
        self.report(agents)
        self.report(agents)
        self.assertEqual(self.order(), [4, 5])

    def test_two_at_once_order_the_same(self):
        self.play("* good width 2 allowed 1")
        agents = self.agents(5)
        another = self.begin_again()
        pictures = self.rounds.look(), another.look()
        self.rounds.order(pictures[0])
        another.order(pictures[1])
        self.assertEqual([int(uid[:8]) for uid in self.server.ordered()], [1, 2, 1, 2])
        self.report(agents)
        self.report(agents)
        picture = another.look()
        self.assertEqual(self.order(), [3, 4])
        another.order(picture)
        self.assertEqual(sorted(set(self.server.ordered())), [uid_of(3), uid_of(4)])
        self.report(agents)
        self.assertEqual([len(agent.had) for agent in agents], [1, 1, 1, 1, 0])

    def test_what_another_has_ordered_is_seen(self):
        self.play("* good")
        self.agents(3)
        another = self.begin_again()
        self.order()
        self.source.says("* new")
        self.assertEqual(self.order(another), [1, 2, 3])
        self.rounds = self.begin_again()
        self.states()
        self.source.says("* good")
        another.order(another.look())
        self.source.says("* good")
        self.server.lines.clear()
        self.assertEqual((self.states(), self.order()), (["offered"] * 3, []))

    def test_failures_halt_it(self):
        self.play("* bad width 3 allowed 1")
        agents = self.agents(6)
        for agent in agents:
            agent.refuses = b"bad"
        self.assertEqual(self.order(), [1, 2, 3])
        self.report(agents[:1])
        self.report(agents[:1])
        self.assertEqual(self.order(), [])  # one failed, which is allowed, and keeps its place
        self.report(agents[1:2])
        self.report(agents[1:2])
        turn, = self.rounds.look().turns
        self.assertEqual((turn.is_halted, turn.waiting, turn.counts["failed"], turn.counts["offered"]), (True, 3, 2, 1))
        self.assertEqual(self.order(), [])
        self.assertEqual(self.order(self.begin_again()), [])
        self.source.says("* good width 3 allowed 1")
        self.assertEqual(self.order(), [1, 2, 3])
        self.report(agents[:3])
        self.report(agents[:3])
        self.assertEqual(self.order(), [4, 5, 6])
        self.assertEqual([agent.files for agent in agents[:3]], [{"good": b"good"}] * 3)

    def test_failed_ones_keep_their_places(self):
        self.play("* bad width 2 allowed 1")
        agents = self.agents(4)
        agents[0].refuses = b"bad"
        self.order()
        self.report(agents)
        self.report(agents)
        self.assertEqual(self.order(), [3])

    def test_those_that_are_ill_with_it_keep_their_places_and_halt_nothing(self):
        self.play("* bad width 2 allowed 0")
        agents = self.agents(5)
        for agent in agents:
            agent.is_ill = b"bad"
        self.assertEqual(self.order(), [1, 2])
        self.report(agents)
        self.report(agents)
        self.assertEqual((self.order(), self.rounds.look().turns[0].is_halted), ([], False))
        agents[0].health = "healthy"
        self.report(agents[:1])
        self.assertEqual(self.order(), [3])

    def test_those_that_are_ill_before_come_last(self):
        self.play("* good width 2 allowed 0")
        agents = self.agents(4)
        agents[0].health = agents[2].health = "unhealthy"
        self.report(agents)
        self.assertEqual(self.order(), [2, 4])
        self.report(agents)
        self.report(agents)
        self.assertEqual(self.order(), [1, 3])

    def test_a_former_offer_is_taken_back_whatever_the_width(self):
        self.play("* good")
        agents = self.agents(5)
        self.order()
        self.report(agents)
        self.report(agents)
        self.source.says("* new")
        self.order()
        self.source.says("* good width 1 allowed 0")
        self.assertEqual(self.order(), [1, 2, 3, 4, 5])

    def test_each_line_has_its_own(self):
        self.play("role=x good width 1 allowed 0", "* bad width 1 allowed 0")
        agents = self.agents(2, role="x") + self.agents(2, first=3)
        for agent in agents:
            agent.refuses = b"bad"
        self.assertEqual(self.order(), [1, 3])
        self.report(agents)
        self.report(agents)
        self.assertEqual(self.order(), [2])
        self.assertEqual([turn.is_halted for turn in self.rounds.look().turns], [False, True])

    def test_while_a_server_is_silent_it_waits(self):
        self.play("00000001 good", "* good width 2 allowed 0", servers=2)
        self.agents(3)
        self.servers[1].close()
        turns = self.rounds.look().turns
        self.assertEqual([turn.is_held for turn in turns], [False, True])
        self.assertEqual(self.order(), [1])

    def test_once_all_that_were_there_are_elsewhere_it_goes_on(self):
        self.play("* good width 2 allowed 0", servers=2)
        self.agents(2)
        gone = self.agents(3, self.servers[1], 3)
        gone[2].presence = "left"
        self.report(gone, self.servers[1])
        self.rounds.look()
        self.servers[1].close()
        self.report(gone[:1])
        self.assertTrue(self.rounds.look().turns[0].is_held)
        self.report(gone[1:2])
        self.assertEqual(([turn.is_held for turn in self.rounds.look().turns], self.order()), ([False], [1, 2]))
        self.assertTrue(self.begin_again().look().turns[0].is_held)

    def test_one_that_tells_nothing_has_no_turn(self):
        self.play("* good width 2 allowed 0")
        self.agents(1, capabilities=ACCEPTS)
        self.assertEqual((self.states(), self.order()), (["mute"], []))

    def test_one_that_left_with_the_offer_keeps_its_place(self):
        self.play("* good width 1 allowed 0")
        agents = self.agents(2)
        self.order()
        number, _, health, text, named = self.server.records[uid_of(1)]
        self.server.records[uid_of(1)] = number + 1, "left", health, text, named
        self.assertEqual((self.states(), self.order()), (["offered", "differs"], []))
        self.server.withdraw(agents[0].uid, "")
        self.now += REFRESH
        self.assertEqual((self.states(), self.order()), (["left", "differs"], [2]))


class Moving(WithFleet):
    def move(self):
        """An agent that took `good` at the first server, and is at the second now."""
        self.play("* good", servers=2)
        agents = self.agents(1)
        self.order()
        self.report(agents)
        self.report(agents)
        self.report(agents, self.servers[1])
        return agents[0]

    def test_what_it_took_where_it_was_is_withdrawn_there(self):
        agent = self.move()
        self.rounds.order(self.rounds.look())
        self.assertEqual((self.server.withdrawn(), self.servers[1].withdrawn()), ([agent.uid], []))
        self.server.lines.clear()
        self.rounds.order(self.rounds.look())
        self.assertEqual(self.server.withdrawn(), [])
        self.source.says("* new")
        self.assertEqual(self.order(), [1])
        self.report([agent], self.servers[1])
        self.report([agent])
        self.assertEqual((len(agent.had), agent.files), (2, {"new": b"new"}))

    def test_what_waits_there_is_withdrawn_where_something_else_is_wanted(self):
        self.play("* good", servers=2)
        agents = self.agents(1)
        self.order()
        agents[0].presence = "here"
        self.servers[1].take(agents[0])
        self.servers[1].records[uid_of(1)] = (9, *self.servers[1].records[uid_of(1)][1:])
        picture = self.rounds.look()
        self.assertEqual((picture.forsaken, [each.state for each in picture.standings]), ((), ["differs"]))
        self.source.says("* new")
        self.assertEqual([agent.uid for agent in self.rounds.look().forsaken], [uid_of(1)])
        self.rounds.order(self.rounds.look())
        self.assertEqual(self.server.withdrawn(), [uid_of(1)])
        self.assertEqual(self.rounds.look().forsaken, ())

    def test_one_that_comes_back_and_goes_again(self):
        agent = self.move()
        self.order()
        self.report([agent])
        self.assertEqual(self.order(), [])
        self.source.says("* new")
        self.assertEqual(self.order(), [1])
        agent.number += 1
        self.report([agent], self.servers[1])
        self.rounds.order(self.rounds.look())
        self.assertEqual(self.server.standing.keys(), {agent.uid})
        self.source.says("* good")
        self.rounds.order(self.rounds.look())
        self.assertEqual(self.server.standing, {})

    def test_others_are_left_alone(self):
        self.play("00000002 alone", "00000003 good", servers=2)
        agents = self.agents(2)
        for agent in agents:
            self.server.config(agent.uid, "x - 00")
        self.report(agents, self.servers[1])
        self.assertEqual(self.rounds.look().forsaken, ())


if __name__ == "__main__":
    unittest.main()
