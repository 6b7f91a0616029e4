"""The parts of tools/collector by themselves: messages, the agent's folder, sets of files, processes, questions."""
import contextlib
import errno
import http.server
import io
import os
import shlex
import signal
import subprocess
import tempfile
import threading
import time
import unittest
from unittest import mock

from played import FAILED, TOP
from gisavelom_collector.area import AgentFolder
from gisavelom_collector.asking import Answer, ask, run
from gisavelom_collector.files import read_folder
from gisavelom_collector.messages import Health, Told, Word, one_line, plain
from gisavelom_collector.output import Output, last_lines
from gisavelom_collector.problems import NotHere, WordsRefused
from gisavelom_collector.processes import MARK, Identity, marked
from gisavelom_collector.sets import Sets, digest_of
from gisavelom_collector.settings import words_of
from gisavelom_collector.words import parser, settings


class WithFolder(unittest.TestCase):
    def setUp(self):
        made = tempfile.TemporaryDirectory()
        self.addCleanup(made.cleanup)
        self.folder = made.name

    def path(self, *names):
        return os.path.join(self.folder, *names)

    def write(self, content, *names):
        os.makedirs(os.path.dirname(self.path(*names)), exist_ok=True)
        with open(self.path(*names), "wb") as out:
            out.write(content)


class Messages(unittest.TestCase):
    def test_a_message_by_hand(self):
        told = Told((("a", "b"),), (("c", "d"),), 0x1807, Health(True, "up", "", 1), {"x": b"y"}, Word(b"7 ab", FAILED, "no"))
        self.assertEqual(told.message(2).hex(" "), " ".join([
            "1a 14", "0a 08 0a 01 61 12 03 0a 01 62", "12 08 0a 01 63 12 03 0a 01 64",     # 3: {1: {1: a, 2: {1: b}}, 2: {1: c, 2: {1: d}}}
            "20 87 30",                                                                      # 4: 0x1807
            "2a 18", "08 01", "11 01 00 00 00 00 00 00 00", "22 02 75 70", "29 02 00 00 00 00 00 00 00",
            "32 0c", "0a 0a", "0a 08 0a 01 78 12 03 0a 01 79",                               # 6: {1: {1: {1: x, 2: {1: y}}}}
            "3a 0c", "0a 04 37 20 61 62", "10 03", "1a 02 6e 6f"]))

    def test_nothing_runs_and_no_trial(self):
        told = Told((), (), 0, Health(False, ""), {}, None)
        self.assertEqual(told.message(0).hex(" "), "1a 00 2a 00 32 02 0a 00")

    def test_large_files_are_told_as_none(self):
        self.assertLess(len(Told((), (), 0, Health(False, ""), {"x": bytes(3_000_001)}).message(0)), 100)

    def test_words_are_cut_at_a_sign(self):
        self.assertEqual(plain("a\u20ac\u20ac", 6), "a\u20ac")
        self.assertEqual(plain(" a\x1b[1m\tb\n\n c\ud800d "), "a [1m b\n\n c d")

    def test_an_operator_sees_one_line(self):
        self.assertEqual(one_line("a:\n\n   b\r\n c "), "a: | b | c")
        self.assertEqual(len(one_line("a\n" * 1000)), 999)


class Area(WithFolder):
    def test_what_is_seen(self):
        agent = AgentFolder(self.folder)
        seen = agent.look()
        self.assertEqual((seen.files, seen.trial, seen.brought), ({}, None, False))
        for name in ("a", ".b", "c d", "a" * 255):
            self.write(b"x", "opamp.d", "config", name)
        seen = agent.look()
        self.assertEqual(sorted(seen.files), ["a", "a" * 255])
        self.assertTrue(seen.is_as(agent.look()))

    def test_the_same_content_brought_anew_is_seen(self):
        agent = AgentFolder(self.folder)
        self.write(b"x", "opamp.d", "config", "a")
        seen = agent.look()
        self.write(b"x", "opamp.d", "config", ".new")
        os.replace(self.path("opamp.d", "config", ".new"), self.path("opamp.d", "config", "a"))
        self.assertFalse(agent.look().is_as(seen))

    def test_the_trial_comes_before_its_files(self):
        agent = AgentFolder(self.folder)
        self.write(b"x", "opamp.d", "config", "a")
        for content, name in ((b"7 ab\n", b"7 ab"), (b"7 \n", b"7 "), (b"7 -\n", b"7 -"), (b"", b""), (b"7\n\n", b"7\n")):
            time.sleep(0.02)
            self.write(content, "opamp.d", "status", "trial")
            seen = agent.look()
            self.assertEqual((seen.trial.name, seen.brought), (name, False))
        time.sleep(0.02)
        self.write(b"x", "opamp.d", "config", "b")
        self.assertTrue(agent.look().brought)

    def test_the_same_name_written_anew_is_seen(self):
        agent = AgentFolder(self.folder)
        self.write(b"x", "opamp.d", "config", "a")
        self.write(b"7 ab\n", "opamp.d", "status", "trial")
        seen = agent.look()
        self.write(b"7 ab\n", "opamp.d", "status", ".new")
        os.replace(self.path("opamp.d", "status", ".new"), self.path("opamp.d", "status", "trial"))
        again = agent.look()
        self.assertEqual((again.trial.name, again.is_as(seen)), (b"7 ab", False))

    def test_a_file_that_vanishes_while_it_is_looked_at(self):
        agent, listed = AgentFolder(self.folder), os.scandir
        for name in "abc":
            self.write(b"x", "opamp.d", "config", name)

        def vanishing(path):
            entries = list(listed(path))
            os.unlink(os.path.join(path, "b"))
            return contextlib.nullcontext(entries)

        with mock.patch("os.scandir", side_effect=vanishing):
            self.assertIsNone(agent.look())
        self.assertEqual(sorted(agent.look().files), ["a", "c"])

    def test_a_link_that_leads_nowhere(self):
        agent = AgentFolder(self.folder)
        self.write(b"7 ab\n", "opamp.d", "status", "trial")
        time.sleep(0.02)
        self.write(b"x", "opamp.d", "config", "a")
        os.symlink("nowhere", self.path("opamp.d", "config", "b"))
        seen = agent.look()
        self.assertEqual((sorted(seen.files), seen.lost, seen.brought), (["a"], ("b",), True))
        self.assertTrue(agent.look().is_as(seen))
        self.write(b"y", "opamp.d", "config", "nowhere")
        seen = agent.look()
        self.assertEqual((seen.files, seen.lost), ({"a": b"x", "b": b"y", "nowhere": b"y"}, ()))

    def test_the_status_is_written_whole(self):
        agent = AgentFolder(self.folder)
        agent.tell(b"one")
        agent.tell(b"two")
        self.assertEqual(os.listdir(agent.status), ["status.pb"])
        with open(os.path.join(agent.status, "status.pb"), "rb") as file:
            self.assertEqual(file.read(), b"two")


class OfSets(WithFolder):
    def opened(self):
        sets = Sets(self.folder, self.path("place"))
        sets.open()
        return sets

    def test_kept_and_put(self):
        sets = self.opened()
        one, two = sets.keep({"a": b"1", "b": b""}), sets.keep({"a": b"2"})
        for digest, files in ((one, {"a": b"1", "b": b""}), (two, {"a": b"2"})):
            sets.put(digest)
            self.assertEqual(read_folder(self.path("place")), files)
        sets.prove(one)
        self.assertEqual(self.opened().good, one)

    def test_a_damaged_set_is_none(self):
        sets = self.opened()
        one = sets.keep({"a": b"1"})
        sets.prove(one)
        self.write(b"other", "sets", one, "a")
        again = self.opened()
        self.assertIsNone(again.good)
        self.assertEqual(again.keep({"a": b"1"}), one)
        self.assertTrue(again.is_whole(one))

    def test_what_works_is_known_where_it_cant_be_noted(self):
        sets = self.opened()
        one, two = sets.keep({"a": b"1"}), sets.keep({"a": b"2"})
        sets.prove(one)
        os.rename(self.path("good"), self.path("away"))
        os.makedirs(self.path("good", "taken"))
        with self.assertRaises(OSError):
            sets.prove(two)
        sets.forget_others([])
        self.assertEqual((sets.good, sorted(os.listdir(self.path("sets")))), (two, sorted([one, two])))
        os.rmdir(self.path("good", "taken"))
        os.rmdir(self.path("good"))
        sets.prove(two)
        self.assertEqual(self.opened().good, two)

    def test_others_are_forgotten(self):
        sets = self.opened()
        names = [sets.keep({"a": body}) for body in (b"1", b"2", b"3", b"4")]
        sets.prove(names[0])
        sets.put(names[1])
        sets.forget_others([names[2]])
        self.assertEqual(sorted(os.listdir(self.path("sets"))), sorted(names[:3]))

    def test_digests_tell_names_from_bodies(self):
        self.assertEqual(len({digest_of(files) for files in ({}, {"a": b""}, {"": b"a"}, {"a": b"b"}, {"ab": b""}, {"a": b"", "b": b""})}), 6)

    def test_a_place_that_is_taken(self):
        self.write(b"x", "place", "mine")
        with self.assertRaises(NotHere):
            self.opened()


class Processes(WithFolder):
    def sleeping(self):
        process = subprocess.Popen(["sleep", "60"], env={**os.environ, MARK: self.folder})
        self.addCleanup(process.wait)
        self.addCleanup(process.kill)
        return process

    def test_found_by_its_mark(self):
        process = self.sleeping()
        identity = Identity.of(process.pid)
        self.assertEqual(marked(self.folder), [identity])
        self.assertEqual(marked(self.folder + "x"), [])
        self.assertTrue(identity.send(signal.SIGKILL))
        process.wait()
        self.assertEqual((identity.is_alive(), identity.send(signal.SIGKILL), marked(self.folder)), (False, False, []))

    def test_another_with_the_same_number_isnt_signalled(self):
        process = self.sleeping()
        other = Identity(process.pid, Identity.of(process.pid).start - 1)
        self.assertEqual((other.is_alive(), other.send(signal.SIGKILL), process.poll()), (False, False, None))

    def test_one_that_ended_and_wasnt_waited_for_is_none(self):
        process = self.sleeping()
        identity = Identity.of(process.pid)
        process.kill()
        end = time.monotonic() + 10
        while identity.is_alive() and time.monotonic() < end:
            time.sleep(0.01)
        self.assertIsNone(Identity.of(process.pid))


def answer(steps):
    try:
        while True:
            next(steps)
            time.sleep(0.01)
    except StopIteration as end:
        return end.value


class Asking(WithFolder):
    def run_it(self, *words, limit=20):
        return answer(run(words, self.folder, dict(os.environ), limit))

    def test_commands(self):
        self.assertEqual(self.run_it("sh", "-c", "echo yes"), Answer(True, "yes"))
        self.assertEqual(self.run_it("sh", "-c", "echo no >&2; exit 3"), Answer(False, "no"))
        self.assertEqual(self.run_it("sh", "-c", "exit 3"), Answer(False, "sh ended with status 3"))
        self.assertEqual(self.run_it("sh", "-c", "kill -9 $$"), Answer(False, "sh was killed by SIGKILL"))
        self.assertEqual(self.run_it("sleep", "60", limit=0.3), Answer(False, "sleep gave no answer in 0.3 s"))
        self.assertEqual(self.run_it("/nowhere/x"), Answer(False, "/nowhere/x can't be run: no such file or directory"))

    def test_where_there_is_no_room_for_its_output(self):
        with mock.patch("tempfile.TemporaryFile", side_effect=OSError(errno.ENOSPC, os.strerror(errno.ENOSPC))):
            self.assertEqual(self.run_it("true"), Answer(False, "true can't be run: no space left on device"))

    def test_where_there_is_no_thread(self):
        with mock.patch("threading.Thread.start", side_effect=RuntimeError("can't start new thread")):
            self.assertEqual(answer(ask("GET", "http://127.0.0.1:1/", 10)), Answer(False, "http://127.0.0.1:1/ can't be asked: can't start new thread"))

    def test_one_that_nobody_waits_for_is_ended(self):
        steps = run(["sh", "-c", f"echo $$ > {self.path('pid')}; sleep 60"], self.folder, dict(os.environ), 60)
        while not os.path.exists(self.path("pid")) or not os.path.getsize(self.path("pid")):
            next(steps)
            time.sleep(0.01)
        steps.close()
        with open(self.path("pid")) as file:
            self.assertIsNone(Identity.of(int(file.read())))

    def test_urls(self):
        class Handler(http.server.BaseHTTPRequestHandler):
            def do_GET(self):
                self.send_response(200 if self.path == "/ready" else 503)
                self.end_headers()
                self.wfile.write(b"so it is")

            def do_POST(self):
                self.send_response(500)
                self.end_headers()
                self.wfile.write(b"failed to reload")

            def log_message(self, *_):
                pass

        server = http.server.ThreadingHTTPServer(("127.0.0.1", 0), Handler)
        self.addCleanup(server.server_close)
        self.addCleanup(server.shutdown)
        threading.Thread(target=server.serve_forever, daemon=True).start()
        url = f"http://127.0.0.1:{server.server_port}"
        self.assertEqual(answer(ask("GET", url + "/ready", 10)), Answer(True, "so it is"))
        self.assertEqual(answer(ask("GET", url + "/other", 10)), Answer(False, "HTTP 503: so it is"))
        self.assertEqual(answer(ask("POST", url + "/-/reload", 10)), Answer(False, "HTTP 500: failed to reload"))

    def test_a_url_where_nobody_answers(self):
        with http.server.HTTPServer(("127.0.0.1", 0), http.server.BaseHTTPRequestHandler) as silent:
            url = f"http://127.0.0.1:{silent.server_port}/"
            self.assertEqual(answer(ask("GET", url, 0.3)).good, False)
        self.assertEqual(answer(ask("GET", url, 10)), Answer(False, f"{url}: connection refused"))


class OfOutput(WithFolder):
    def test_passed_on_and_looked_at(self):
        out = io.BytesIO()
        output = Output(self.path("output"), out)
        opened = output.opened()
        self.addCleanup(os.close, opened)
        os.write(opened, b"level=info one\n")
        output.begin()
        os.write(opened, b"level=info two\nlevel=error three\nlevel=info four\n")
        self.assertEqual(output.words(), "level=error three")
        output.begin()
        os.write(opened, b"five\nsix\n")
        self.assertEqual(output.words(), "five\nsix")
        self.assertEqual(out.getvalue().count(b"\n"), 6)

    def test_the_file_stays_small(self):
        output = Output(self.path("output"), io.BytesIO())
        opened = output.opened()
        self.addCleanup(os.close, opened)
        for _ in range(40):
            os.write(opened, b"x" * 65536)
            output.pass_on()
        self.assertLess(os.path.getsize(self.path("output")), 1 << 21)

    def test_last_lines(self):
        self.assertEqual(last_lines(["aa", "bb", "cc"], 5), "bb\ncc")
        self.assertEqual(last_lines(["aaaaaaaa"], 5), "aaaaa")
        self.assertEqual(last_lines([], 5), "")


class OfWords(WithFolder):
    def test_folders_in_commands(self):
        self.assertEqual(words_of("a '{files}/b c' --d={own}/e", "/f", "/o"), ["a", "/f/b c", "--d=/o/e"])

    def test_what_stands_for_what_isnt_given(self):
        told = settings(["--run", "a", "--folder", self.folder])
        folder = os.path.realpath(self.folder)
        self.assertEqual((told.own, told.place, told.reload), (folder + "/collector.d", folder + "/collector.d/files", "restart"))
        # ReportsStatus, AcceptsRemoteConfig, ReportsEffectiveConfig, AcceptsOpAMPConnectionSettings, AcceptsRestartCommand, ReportsHealth, ReportsRemoteConfig
        self.assertEqual(told.capabilities, 0x1 | 0x2 | 0x4 | 0x100 | 0x400 | 0x800 | 0x1000)

    def test_a_file_of_options(self):
        self.write(b"# one\n\nrun a b\n  check c 'd e'\nattribute k=v\nattribute l=w\n", "options")
        told = settings(["@" + self.path("options")])
        self.assertEqual((told.run, told.check), ("a b", "c 'd e'"))
        self.assertEqual([pair for pair in told.attributes if pair[0] != "host.name"], [("k", "v"), ("l", "w")])

    def test_the_help_has_words_that_the_example_has(self):
        line = parser().format_help().replace("\\\n", " ").split("\n  collector --run ")[1].split("\n")[0]
        told = settings(shlex.split("--run " + line))
        example = settings(["@" + os.path.join(TOP, "examples", "collectors", "prometheus", "options")])
        self.assertEqual((told.reload, told.health), (example.reload, example.health))
        # Without this one Prometheus doesn't answer at the URL for a reload.
        for each in (told, example):
            self.assertIn("--web.enable-lifecycle", each.run)

    def test_quotes_that_dont_end(self):
        for option in ("--run", "--check", "--reload", "--health"):
            with self.assertRaises(WordsRefused):
                settings(["--run", "a", option, "b 'c"])


if __name__ == "__main__":
    unittest.main()
