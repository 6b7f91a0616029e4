"""Lines over TCP: orders, answers, refusals, and what ends a connection."""
import unittest

from scripted import AGES, CONFIG, COUNT, LEFT, LISTED, OTHER, SHOWN, UID, UNKNOWN, WithServers
from gisavelom_operator.lines import Address, Aged, Listed, Session
from gisavelom_operator.problems import NoServer, NoSuchAgent, NotUnderstood, Refused, WordsRefused


class Addresses(unittest.TestCase):
    def test_right_ones(self):
        for word, host, port in [("127.0.0.1:4322", "127.0.0.1", 4322), ("[::1]:1", "::1", 1), ("localhost:65535", "localhost", 65535)]:
            self.assertEqual(Address.read(word), Address(host, port))
            self.assertEqual(str(Address.read(word)), word)

    def test_wrong_ones(self):
        for word in ["", "4322", ":4322", "host:", "host:0", "host:65536", "host:x", "::1:4322", "host:+1", "host: 1"]:
            with self.subTest(word), self.assertRaises(WordsRefused):
                Address.read(word)


class Sessions(WithServers):
    def session(self, answers, seconds=5.0):
        self.scripted = self.server(answers)
        session = Session(Address("127.0.0.1", self.scripted.port), seconds)
        self.addCleanup(session.close)
        return session

    def test_worked_examples(self):
        session = self.session({"list": LISTED, f"show {UID}": SHOWN, CONFIG: "ok\n", f"restart {UID}": "ok\n", "stop": "ok\n"})
        self.assertEqual(session.list(), [Listed(UID, 1, "here", "healthy")])
        self.assertEqual(session.show(UID), SHOWN.split("\n")[:-2])
        for order in (CONFIG, f"restart {UID}", "stop"):
            session.order(order)
        self.assertEqual(self.scripted.connections, 1)

    def test_ages_and_counts(self):
        session = self.session({"ages": [AGES, "end\n"], "count": COUNT})
        self.assertEqual(session.ages(), [Aged(UID, 42, "open"), Aged(OTHER, 430, "closed"), Aged(LEFT, 11000, "http")])
        self.assertEqual(session.ages(), [])
        self.assertEqual(session.count(), {"agents": 3, "here": 2, "healthy": 1, "unhealthy": 1, "connections": 4, "reports": 2**64 - 1,
                                           "orders": 2, "rollouts": 1})
        former = self.session({})
        self.assertEqual((former.ages(), former.count()), (None, None))
        full = self.session({"ages": "refused: no memory\n", "count": "refused: no memory\n"})
        for ask in (full.ages, full.count):
            with self.assertRaisesRegex(Refused, "no memory"):
                ask()
        for line in (f"{UID} 42", f"{UID} -1 open", f"{UID} \u0663 http", f"{UID} 42 shut", f"{UID}  42 open", "ok"):
            with self.assertRaises(NotUnderstood, msg=line):
                self.session({"ages": line + "\nend\n"}).ages()

    def test_an_empty_fleet(self):
        self.assertEqual(self.session({"list": "end\n"}).list(), [])

    def test_a_sign_that_python_takes_for_a_line_end(self):
        session = self.session({f"show {UID}": 'a = "x\u2028y\u0085z"\nend\n'})
        self.assertEqual(session.show(UID), ['a = "x\u2028y\u0085z"'])

    def test_refusals(self):
        session = self.session({f"show {UID}": UNKNOWN, CONFIG: "refused: too large\n", f"restart {UID}": UNKNOWN})
        with self.assertRaisesRegex(Refused, "refused: too large"):
            session.order(CONFIG)
        with self.assertRaises(NoSuchAgent):
            session.show(UID)
        with self.assertRaises(NoSuchAgent):
            session.order(f"restart {UID}")
        with self.assertRaisesRegex(Refused, "refused: words"):
            session.order("restart x")
        self.assertEqual(self.scripted.connections, 1)

    def test_an_order_above_the_limit_is_not_sent(self):
        session = self.session({})
        with self.assertRaisesRegex(Refused, "too large"):
            session.order("x" * 4_194_304)
        self.assertEqual(self.scripted.lines, [])

    def test_another_protocol(self):
        for answer in ("HTTP/1.1 400 Bad Request\r\n", "hello\n", "\n"):
            with self.subTest(answer), self.assertRaises(NotUnderstood):
                self.session({"list": answer}).list()
        with self.assertRaises(NotUnderstood):
            self.session({"stop": "fine\n"}).order("stop")
        with self.assertRaises(NotUnderstood):
            self.session({"list": f"{UID} x here healthy\nend\n"}).list()

    def test_nobody_is_there(self):
        host, port = self.nobody().split(":")
        with self.assertRaisesRegex(NoServer, "no server at .*: connection refused"):
            Session(Address(host, int(port)), 5.0).list()

    def test_silence(self):
        with self.assertRaisesRegex(NoServer, "doesn't answer in time"):
            self.session({"list": f"{UID} 1 here"}, 0.2).list()

    def test_the_end_of_a_connection(self):
        session = self.session({"list": [LISTED, None, LISTED], "stop": None})
        session.list()
        self.assertEqual(len(session.list()), 1)  # the idle connection had ended, so it is asked again
        self.assertEqual(self.scripted.connections, 2)
        with self.assertRaisesRegex(NoServer, "ended the connection"):
            session.order("stop")
        self.assertEqual(self.scripted.lines.count("stop"), 1)
        with self.assertRaisesRegex(NoServer, "ended the connection"):
            self.session({"list": None}).list()


class Rows(WithServers):
    """Many texts, asked ahead."""

    def rows(self, answers, uids):
        self.scripted = self.server(answers)
        session = Session(Address("127.0.0.1", self.scripted.port), 5.0)
        self.addCleanup(session.close)
        return list(session.show_all(uids))

    def test_in_their_order_on_one_connection(self):
        uids = [f"u{number}" for number in range(1000)]
        rows = self.rows({f"show {uid}": f"sequence_num = {uid[1:]}\nend\n" for uid in uids}, uids)
        self.assertEqual(rows, [(uid, [f"sequence_num = {uid[1:]}"]) for uid in uids])
        self.assertEqual(self.scripted.connections, 1)

    def test_agents_that_are_gone(self):
        rows = self.rows({"show a": "a = 1\nend\n", "show b": UNKNOWN, "show c": "refused: no memory\n", "show d": "end\n"}, "abcd")
        self.assertEqual(rows, [("a", ["a = 1"]), ("b", None), ("c", None), ("d", [])])

    def test_a_text_that_ends_the_connection(self):
        rows = self.rows({"show a": "a = 1\nend\n", "show b": None, "show c": "c = 1\nend\n", "show d": "d = 1\nend\n"}, "abcd")
        self.assertEqual(rows, [("a", ["a = 1"]), ("b", None), ("c", ["c = 1"]), ("d", ["d = 1"])])

    def test_one_that_ends_it_among_others_alone(self):
        rows = self.rows({"show a": [None, "a = 1\nend\n"], "show b": "b = 1\nend\n"}, "ab")
        self.assertEqual(rows, [("a", ["a = 1"]), ("b", ["b = 1"])])


if __name__ == "__main__":
    unittest.main()
