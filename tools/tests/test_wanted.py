"""The table of a wanted state: its lines, which agents they find, and what isn't right."""
import hashlib
import unittest

from scripted import CONFIG_MESSAGE, LEFT, OTHER, UID
from gisavelom_operator.agents import Summary
from gisavelom_operator.fleet import Agent
from gisavelom_operator.lines import Address, Listed
from gisavelom_operator.problems import NotRight
from gisavelom_operator.wanted import read_wanted

FILES = {"agent.yaml": b"k: v", "some/where/a.txt": b"a", "b.bin": b"\0\xff", "empty": b""}


def agent(uid, shown=True, **attributes):
    return Agent(Listed(uid, 1, "here", "healthy"), Address("h", 1), Summary(attributes) if shown else None)


class Tables(unittest.TestCase):
    def wanted(self, *lines):
        return read_wanted({**FILES, "table": "".join(line + "\n" for line in lines).encode()})

    def refused(self, why, *lines):
        with self.assertRaises(NotRight) as refused:
            self.wanted(*lines)
        self.assertEqual(str(refused.exception), why)

    def test_the_file_of_the_readme(self):
        line, = self.wanted("* agent.yaml").lines
        self.assertEqual((line.number, line.hash, line.order), (1, hashlib.sha256(CONFIG_MESSAGE).hexdigest(), "agent.yaml text/yaml 6b3a2076"))
        self.assertEqual((line.wave, line.said), (None, "* agent.yaml"))

    def test_lines_that_mean_nothing(self):
        wanted = self.wanted("", "# a note", "   ", "  # another", "* empty")
        self.assertEqual([line.number for line in wanted.lines], [5])
        self.assertEqual(self.wanted().lines, ())

    def test_files(self):
        line, = self.wanted("*  agent.yaml as - type -  some/where/a.txt   b.bin type 'x/y' as \"c#d\" empty").lines
        self.assertEqual(line.order, "- - 6b3a2076 a.txt text/plain 61 c#d x/y 00ff empty - -")
        self.assertEqual([(file.name, file.content_type) for file in line.config.files], [("", ""), ("a.txt", "text/plain"), ("c#d", "x/y"), ("empty", "")])

    def test_the_last_line_needs_no_end_and_lines_may_end_as_elsewhere(self):
        self.assertEqual(len(read_wanted({**FILES, "table": b"0001 empty\r\n* empty"}).lines), 2)

    def test_the_first_line_that_finds_an_agent_counts(self):
        wanted = self.wanted("00010203-FFFF empty", "service.name=x env='two words' agent.yaml", "service.name=x b.bin", "9020 alone", "{0001 empty")
        for found, line in [(agent(OTHER, **{"service.name": "x"}), 1), (agent(UID, **{"service.name": "x", "env": "two words"}), 2),
                            (agent(UID, **{"service.name": "x", "env": "two"}), 3), (agent(LEFT), 4), (agent(UID), 5)]:
            self.assertEqual(wanted.line_of(found).number, line)
        self.assertIsNone(wanted.line_of(agent("ffff0203-0405-0607-0809-0a0b0c0d0e0f")))
        self.assertTrue(wanted.lines[3].is_alone)

    def test_an_agent_whose_attributes_are_not_known(self):
        wanted = self.wanted("0001 empty", "env=x agent.yaml", "* b.bin")
        self.assertEqual(wanted.line_of(agent(UID, shown=False)).number, 1)
        self.assertIsNone(wanted.line_of(agent(LEFT, shown=False)))
        self.assertFalse(wanted.is_known(agent(LEFT, shown=False)))
        self.assertTrue(wanted.is_known(agent(UID, shown=False)))
        self.assertTrue(self.wanted("* b.bin").is_known(agent(LEFT, shown=False)))

    def test_non_identifying_attributes_count_too(self):
        told = Agent(Listed(UID, 1, "here", "healthy"), Address("h", 1), Summary({"a": "1"}, {"b": "2"}))
        self.assertEqual(self.wanted("b=2 a=1 empty").line_of(told).number, 1)

    def test_waves(self):
        line, = self.wanted("* agent.yaml width 20 allowed 3").lines
        self.assertEqual((line.wave.width, line.wave.allowed), (20, 3))
        for words in ("width 0 allowed 0", "width 3 allowed 3", "width x allowed 0", "width 3", "width 3 allowed", "width 3 allowed -1", "width 3 failed 1",
                      "width 3 allowed 1 empty", "width 3 allowed 1 width 3 allowed 1"):
            with self.subTest(words):
                self.refused("table, line 1: a wave is `width N allowed M` at the line's end, with M below N", f"* agent.yaml {words}")

    def test_what_is_not_right(self):
        for lines, why in [
            (["* agent.yaml", "x y"], "line 2: `x` finds no agent: it isn't `*`, KEY=VALUE or four digits or more of an identifier's beginning"),
            (["000 agent.yaml"], "line 1: `000` finds no agent: it isn't `*`, KEY=VALUE or four digits or more of an identifier's beginning"),
            (["*"], "line 1: there are no files; an agent that is to be left alone has `alone` in their place"),
            (["0001 width 2 allowed 1"], "line 1: there are no files; an agent that is to be left alone has `alone` in their place"),
            (["0001 alone agent.yaml"], "line 1: nothing stands behind `alone`"),
            (["* agent.yaml as"], "line 1: nothing stands behind `as`"),
            (["* agent.yaml type"], "line 1: nothing stands behind `type`"),
            (["* as x"], "line 1: `as` is no file: it is a word of the table"),
            (["* ../x"], "line 1: `../x` is no file: a path has letters, digits, `.`, `_`, `-` and `/` between names that don't begin with `.`"),
            (["* /etc/x"], "line 1: `/etc/x` is no file: a path has letters, digits, `.`, `_`, `-` and `/` between names that don't begin with `.`"),
            (["* table"], "line 1: `table` is the table itself"),
            (["* nowhere"], "line 1: there is no file nowhere"),
            (["* 'agent.yaml"], "line 1: a quotation mark, or what stands behind a backslash, has no end"),
            (["* agent.yaml as 'a b'"], "line 1: the name 'a b' can't be said to a server: it is empty, or has a blank or a line's end"),
            (["* agent.yaml empty as agent.yaml"], "line 1: two files have one name: an agent has a file under each name"),
            (["=x agent.yaml"], "line 1: `=x` finds no agent: it isn't `*`, KEY=VALUE or four digits or more of an identifier's beginning"),
            (["* agent.yaml", "0001 agent.yaml"], "line 2: no agent comes to it, since line 1 is for all"),
            (["a=b agent.yaml", "a=b empty"], "line 2: no agent comes to it, since line 1 finds the same"),
        ]:
            with self.subTest(lines):
                self.refused(f"table, {why}", *lines)

    def test_a_table_that_is_none(self):
        with self.assertRaisesRegex(NotRight, "there is no table"):
            read_wanted(FILES)
        with self.assertRaisesRegex(NotRight, "table: it isn't UTF-8"):
            read_wanted({"table": b"\xff"})

    def test_an_offer_is_at_most_so_large(self):
        # The limit counts the message with its hash: 34 bytes of that, and 28 of names, types and lengths
        files = {"table": b"* x", "x": bytes(1_048_576 - 34 - 4 - 4 - 3 - 4 - 4)}
        self.assertEqual(read_wanted(files).lines[0].config.size(), 1_048_576)
        with self.assertRaises(NotRight) as refused:
            read_wanted({**files, "x": files["x"] + b"x"})
        self.assertEqual(str(refused.exception), "table, line 1: the offer would have 1,048,577 bytes, and servers take 1,048,576 at most")

    def test_two_states_are_told_apart(self):
        marks = {self.wanted(*lines).mark for lines in ([], ["* agent.yaml"], ["* empty"], ["0001 agent.yaml"])}
        self.assertEqual(len(marks), 4)
        self.assertEqual(self.wanted("* agent.yaml").mark, self.wanted("# note", "* agent.yaml").mark)
        self.assertNotEqual(self.wanted("* agent.yaml").mark, self.wanted("* agent.yaml width 2 allowed 1").mark)


if __name__ == "__main__":
    unittest.main()
