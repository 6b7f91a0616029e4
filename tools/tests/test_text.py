"""The text of a message, read. The examples are those of docs/COMMANDS.md, "Readable text", and what follows from its rules."""
import unittest

import scripted
from gisavelom_operator.agents import capability_names, details_of, summary_of
from gisavelom_operator.problems import NotUnderstood
from gisavelom_operator.text import tree_of


class Texts(unittest.TestCase):
    def test_worked_example(self):
        tree = tree_of([
            'agent_description.identifying_attributes[0].key = "d"',
            "agent_description.identifying_attributes[0].value.double_value = bits 3ff8000000000000",
        ])
        self.assertEqual(tree, {"agent_description": {"identifying_attributes": {0: {"key": "d", "value": {"double_value": 1.5}}}}})

    def test_values(self):
        for line, value in [
            ("a = {}", {}),
            ('a = ""', ""),
            ('a = "\\"\\\\\\n\\x01\\x7f\u00fc"', '"\\\n\x01\x7f\u00fc'),
            ('a = "\\\\n\\\\x41"', "\\n\\x41"),
            ("a = hex 00ff", b"\x00\xff"),
            ("a = hex ", b""),
            ("a = 18446744073709551615", 2 ** 64 - 1),
            ("a = -1", -1),
            ("a = true", True),
            ("a = false", False),
        ]:
            with self.subTest(line):
                self.assertEqual(tree_of([line]), {"a": value})

    def test_keys_of_maps(self):
        tree = tree_of(['m["a\\""].body = hex ab0f', 'm["x = 1].y[\\"z"] = {}', 'm[""] = {}'])
        self.assertEqual(tree, {"m": {'a"': {"body": b"\xab\x0f"}, 'x = 1].y["z': {}, "": {}}})

    def test_lines_that_are_none(self):
        for line in ["a", " = 1", "a = x", "a = hex 0", "a = bits 00", 'a["b = 1', "a[b] = 1", "A = 1", "HTTP/1.1 400 Bad Request"]:
            with self.subTest(line), self.assertRaises(NotUnderstood):
                tree_of([line])
        with self.assertRaises(NotUnderstood):
            tree_of(["a = 1", "a.b = 1"])


class Agents(unittest.TestCase):
    LINES = scripted.telling(status=3, error="bad name").split("\n")[:-2]

    def test_summary(self):
        summary = summary_of(self.LINES)
        self.assertEqual(summary.attribute("service.name"), "collector")
        self.assertEqual(summary.others, {"deployment": "test", "ports": "[-1, false]"})
        self.assertEqual((summary.config.state, summary.config.hash, summary.config.error), ("failed", "abcd", "bad name"))
        self.assertEqual(summary.packages.words(), "1 failed")

    def test_details(self):
        details = details_of(self.LINES)
        self.assertEqual(details.summary, summary_of(self.LINES))
        self.assertEqual([(file.name, file.content_type, file.body) for file in details.files], [("agent.yaml", "text/yaml", b"k: v")])
        self.assertEqual({name: part.healthy for name, part in details.health.parts.items()}, {"pipeline": False, "pipeline x": True})
        self.assertEqual(details.custom_capabilities, ("com.example.echo",))

    def test_little_is_told(self):
        details = details_of(scripted.SHOWN.split("\n")[:-2])
        self.assertEqual(details.summary.identifying, {})
        self.assertEqual(details.summary.config.state, "none")
        self.assertEqual(details.summary.packages.words(), "-")
        self.assertTrue(details.health.healthy)
        self.assertEqual(details_of([]).health, None)

    def test_capabilities(self):
        self.assertEqual(capability_names(2049), ["ReportsStatus", "ReportsHealth"])
        self.assertEqual(capability_names(0x80002), ["AcceptsRemoteConfig", "0x80000"])


if __name__ == "__main__":
    unittest.main()
