"""tools/collector as it runs, between a played agent and a played collector."""
import os
import signal
import subprocess
import sys
import time
import unittest

from played import APPLIED, APPLYING, FAILED, TOP, Played, Program
from opamp_wire import field, part, text


class Trials(Played):
    def test_a_good_file(self):
        self.start()
        self.assertEqual(self.outcome(self.begin("run", "one")), (APPLIED, ""))
        self.running("run one")

    def test_the_name_is_copied_to_the_byte(self):
        self.start()
        for hash in ("", "-", "00ff"):
            with self.subTest(hash):
                self.assertEqual(self.outcome(self.begin("run", "one", hash=hash)), (APPLIED, ""))

    def test_the_same_name_of_another_trial(self):
        self.start()
        name = self.begin("run", "one")
        self.assertEqual(self.outcome(name), (APPLIED, ""))
        time.sleep(0.05)
        self.write("status", "trial", name + b"\n")
        self.until(lambda: self.report().remote == (name, APPLYING, ""), 5)
        self.bring({"c.conf": b"refuse"})
        self.assertEqual(self.outcome(name)[0], FAILED)
        time.sleep(0.05)
        self.write("status", "trial", name + b"\n")
        self.bring({"c.conf": b"run one"})
        self.assertEqual(self.until(lambda: self.report().remote[1] == APPLIED and self.report().remote), (name, APPLIED, ""))

    def test_a_link_that_leads_nowhere(self):
        self.start()
        self.outcome(self.begin("run", "one"))
        pid = self.running("run one")
        name = self.begin()
        os.symlink("nowhere", self.path("opamp.d", "config", "d.conf"))
        self.write("config", "c.conf", b"run two")
        self.assertEqual(self.outcome(name), (FAILED, "d.conf is a link that leads nowhere"))
        self.assertEqual(self.state(), (pid, "run one"))

    def test_one_that_the_check_refuses_touches_nothing(self):
        self.start()
        self.outcome(self.begin("run", "one"))
        pid = self.running("run one")
        status, error = self.outcome(self.begin("refuse"))
        self.assertEqual((status, error), (FAILED, "the check: refuse | no"))
        self.assertEqual(self.state(), (pid, "run one"))
        self.until(lambda: self.health() == (False, "running what worked before", error))
        self.bring({"c.conf": b"run one"})
        self.until(lambda: self.health() == (True, "running, went back", ""))
        self.assertEqual(self.state(), (pid, "run one"))

    def test_one_that_it_dies_of(self):
        for reload in ("restart", "hup"):
            with self.subTest(reload):
                self.start("--reload", reload)
                self.outcome(self.begin("run", "one"))
                for words, told in (("die", "the collector ended with status 3: error: no such thing as die"), ("die-later", "the collector ended with status 4: ")):
                    status, error = self.outcome(self.begin(words))
                    self.assertEqual(status, FAILED)
                    self.assertEqual(error[:len(told)], told)
                    self.running("run one", healthy=False)
                    self.bring({"c.conf": b"run one"})
                    self.running("run one")
                self.end()

    def test_one_that_it_isnt_healthy_with(self):
        self.start()
        self.outcome(self.begin("run", "one"))
        status, error = self.outcome(self.begin("sick"))
        self.assertEqual((status, error.startswith("not healthy in 4 s: ")), (FAILED, True))
        self.assertIn("sick", error)
        self.running("run one", healthy=False)

    def test_reload_by_signal_keeps_the_process(self):
        self.start("--reload", "hup")
        self.outcome(self.begin("run", "one"))
        pid = self.running("run one")
        self.assertEqual(self.outcome(self.begin("run", "two")), (APPLIED, ""))
        self.assertEqual(self.running("run two"), pid)

    def test_reload_by_command_that_refuses(self):
        self.start("--reload", """sh -c 'if grep -q never {files}/c.conf; then echo never; exit 1; fi; kill -HUP $COLLECTOR_PID'""")
        self.outcome(self.begin("run", "one"))
        pid = self.running("run one")
        self.assertEqual(self.outcome(self.begin("run", "two")), (APPLIED, ""))
        self.assertEqual(self.running("run two"), pid)
        self.assertEqual(self.outcome(self.begin("run", "never")), (FAILED, "the reload: never"))
        self.assertNotEqual(self.running("run two", healthy=False), pid)

    def test_no_word_before_files_are_brought(self):
        self.start()
        self.outcome(self.begin("run", "one"))
        time.sleep(0.05)
        name = self.begin()
        self.until(lambda: self.report().remote == (name, APPLYING, ""))
        time.sleep(2)
        self.assertEqual(self.report().remote, (name, APPLYING, ""))
        self.bring({"c.conf": b"run one"})
        self.assertEqual(self.outcome(name), (APPLIED, ""))

    def test_files_that_come_one_by_one_are_taken_up_together(self):
        self.start("--quiet", "2")
        self.outcome(self.begin("run", "one"))
        pid = self.running("run one")
        name = self.begin()
        for each in "abcde":
            self.write("config", each, b"x")
            time.sleep(0.1)
        self.bring({"c.conf": b"run two", **{each: b"x" for each in "abcde"}})
        self.assertEqual(self.outcome(name), (APPLIED, ""))
        self.assertEqual(self.until(lambda: self.state()[1] == "run two" and sorted(self.report().files)), ["a", "b", "c", "c.conf", "d", "e"])
        with open(self.path("log")) as log:
            self.assertEqual(log.read().count("taken up"), 2)
        self.assertNotEqual(self.state()[0], pid)

    def test_a_word_on_some_of_the_files_is_taken_back(self):
        self.start("--check", """sh -c '! grep -h refuse {files}/* || exit 1; sleep 3'""", "--quiet", "3")
        name = self.begin("run", "one")
        self.assertEqual(self.outcome(name), (APPLIED, ""))
        self.write("config", "d.conf", b"refuse")
        self.until(lambda: self.report().remote == (name, APPLYING, ""), 2.5)
        self.assertEqual(self.outcome(name), (FAILED, "the check: refuse"))
        self.bring({"c.conf": b"run one"})
        self.running("run one")
        self.assertEqual(self.report().remote, (name, FAILED, "the check: refuse"))

    def test_files_brought_back_amid_a_trial(self):
        self.start(environment={"SLOW": "1"})
        self.outcome(self.begin("run", "one"))
        self.begin("sick")
        self.until(lambda: self.state()[1] == "sick")
        self.bring({"c.conf": b"run one"})
        self.running("run one")

    def test_no_files(self):
        self.start()
        self.outcome(self.begin("run", "one"))
        name = self.begin()
        self.bring({})
        self.assertEqual(self.outcome(name), (FAILED, "there are no files"))
        self.running("run one", healthy=False)

    def test_a_long_word_is_cut(self):
        self.start("--check", "sh -c 'yes aaaaaaäa | head -n 1000; exit 1'")
        status, error = self.outcome(self.begin("run", "one"))
        self.assertEqual((status, 990 < len(error.encode()) <= 1000), (FAILED, True))


class Kills(Played):
    """At any moment: the program and the collector."""

    def test_the_collector_is_started_again(self):
        self.start()
        self.outcome(self.begin("run", "one"))
        for _ in range(3):
            pid = self.running("run one")
            os.kill(pid, signal.SIGKILL)
            self.until(lambda: self.state()[0] not in (0, pid))
        self.running("run one")

    def test_the_collector_killed_amid_a_check(self):
        self.start(environment={"SLOW": "2"})
        self.outcome(self.begin("run", "one"))
        pid = self.running("run one")
        name = self.begin("run", "two")
        time.sleep(1)
        os.kill(pid, signal.SIGKILL)
        self.assertEqual(self.outcome(name), (APPLIED, ""))
        self.running("run two")

    def test_the_program_takes_the_collector_over(self):
        self.start()
        self.outcome(self.begin("run", "one"))
        pid = self.running("run one")
        self.program.kill()
        self.assertEqual(self.state(), (pid, "run one"))
        self.start()
        self.assertEqual(self.outcome(self.begin("run", "one", hash="other")), (APPLIED, ""))
        self.assertEqual(self.state(), (pid, "run one"))
        os.kill(pid, signal.SIGKILL)
        self.until(lambda: self.state()[0] not in (0, pid))
        self.running("run one")

    def test_what_worked_is_run_on_where_it_is_slow(self):
        slow = ("--health", """sh -c 'echo slow; test -e ready'""")
        open(self.path("ready"), "w").close()
        self.start(*slow)
        self.outcome(self.begin("run", "one"))
        pid = self.running("run one")
        self.program.kill()
        os.unlink(self.path("ready"))
        self.start(*slow)
        name = self.begin("run", "one")
        self.assertEqual(self.outcome(name), (FAILED, "not healthy in 4 s: slow"))
        self.until(lambda: self.health() == (False, "running", "slow"))
        self.assertEqual(self.state(), (pid, "run one"))
        open(self.path("ready"), "w").close()
        self.until(lambda: self.health() == (True, "running", ""))
        self.assertEqual(self.state(), (pid, "run one"))

    def test_one_with_other_words_isnt_taken_over(self):
        self.start()
        self.outcome(self.begin("run", "one"))
        pid = self.running("run one")
        self.program.kill()
        self.program = Program(self.folder, "--run", f"{sys.executable} {self.path('collector.py')} {{files}} more")
        self.until(lambda: self.state()[0] not in (0, pid))
        self.running("run one")

    def test_one_whose_start_wasnt_recorded_is_ended(self):
        self.start()
        self.outcome(self.begin("run", "one"))
        pid = self.running("run one")
        self.program.kill()
        os.unlink(self.path("collector.d", "collector"))
        self.start()
        self.until(lambda: self.state()[0] not in (0, pid))
        self.running("run one")

    def test_the_program_killed_at_any_moment_of_a_trial(self):
        self.start(environment={"SLOW": "0.3"})
        self.outcome(self.begin("run", "one"))
        for at in (0.0, 0.2, 0.4, 0.6, 0.8, 1.2, 1.6):
            with self.subTest(at):
                self.begin("die" if at < 0.5 else "sick")
                time.sleep(at)
                self.program.kill()
                self.start(environment={"SLOW": "0.3"})
                self.running("run one", healthy=False)
                self.bring({"c.conf": b"run one"})
                self.running("run one")

    def test_a_word_on_the_trial_comes_from_the_next_life(self):
        self.start(environment={"SLOW": "1"})
        name = self.begin("run", "one")
        time.sleep(0.7)
        self.program.kill()
        self.start()
        self.assertEqual(self.outcome(name), (APPLIED, ""))

    def test_a_second_one_isnt_let_in(self):
        self.start()
        self.outcome(self.begin("run", "one"))
        self.assertEqual(Program(self.folder).wait(), 3)

    def test_an_end_ends_the_collector(self):
        self.start()
        self.outcome(self.begin("run", "one"))
        self.running("run one")
        self.assertEqual(self.program.kill(signal.SIGTERM), 0)
        self.assertEqual(self.state(), (0, ""))
        self.assertEqual(self.health(), (False, "stopped", "the collector was stopped"))
        self.assertEqual(self.report().files, {})


class Starts(Played):
    def test_the_kept_files_are_run_without_a_trial(self):
        self.bring_first(b"run one")
        self.start()
        self.running("run one")
        self.assertIsNone(self.report().remote)

    def test_the_default_is_run_while_there_are_none(self):
        os.makedirs(self.path("mine"))
        with open(self.path("mine", "c.conf"), "w") as out:
            out.write("run mine")
        self.start("--default", self.path("mine"))
        self.running("run mine")
        self.assertEqual(self.outcome(self.begin("run", "one")), (APPLIED, ""))
        self.running("run one")

    def test_a_first_offer_that_fails_leaves_nothing_running(self):
        self.start()
        self.assertEqual(self.outcome(self.begin("sick"))[0], FAILED)
        self.bring({})
        self.until(lambda: self.health() == (False, "not running", "there are no files"))
        self.assertEqual((self.state(), self.report().files), ((0, ""), {}))

    def test_files_taken_away_amid_a_trial_leave_what_worked(self):
        self.start()
        for worked in (False, True):
            with self.subTest(worked):
                if worked:
                    self.outcome(self.begin("run", "one"))
                self.begin("sick")
                self.until(lambda: self.state()[1] == "sick")
                self.bring({})
                if worked:
                    self.running("run one", healthy=False)
                    self.until(lambda: self.health() == (False, "running what worked before", "there are no files"))
                else:
                    self.until(lambda: self.state() == (0, "") and self.health() == (False, "not running", "there are no files"))

    def test_the_next_life_ends_what_was_on_trial_where_there_are_no_files(self):
        self.start()
        self.begin("sick")
        self.until(lambda: self.state()[1] == "sick")
        self.program.kill()
        self.bring({})
        self.start()
        self.until(lambda: self.state() == (0, "") and self.health() == (False, "not running", "there are no files"))

    def test_what_works_is_run_on_where_that_cant_be_noted(self):
        self.start()
        self.until(lambda: os.path.isdir(self.path("collector.d", "sets")) and self.report())
        os.makedirs(self.path("collector.d", "good", "taken"))
        self.assertEqual(self.outcome(self.begin("run", "one")), (APPLIED, ""))
        pid = self.running("run one")
        self.assertEqual(self.outcome(self.begin("refuse"))[0], FAILED)
        self.running("run one", healthy=False)
        self.assertEqual(self.state()[0], pid)

    def test_nothing_works_yet_and_it_is_tried_again(self):
        self.bring_first(b"die")
        self.start()
        self.until(lambda: "no such thing as die" in self.health()[2])
        self.bring({"c.conf": b"run one"})
        self.running("run one")

    def test_what_was_refused_is_tried_again_behind_a_signal(self):
        self.start("--check", f"test -e {self.path('allowed')}")
        os.makedirs(self.path("opamp.d", "config"))
        self.begin("run", "one")
        self.until(lambda: self.health()[2].startswith("the check: "))
        open(self.path("allowed"), "w").close()
        self.program.process.send_signal(signal.SIGHUP)
        self.running("run one")

    def test_a_disk_that_is_full_ends_nothing(self):
        self.start()
        self.outcome(self.begin("run", "one"))
        pid = self.running("run one")
        os.rename(self.path("collector.d", "sets"), self.path("collector.d", "away"))
        open(self.path("collector.d", "sets"), "w").close()
        status, error = self.outcome(self.begin("run", "two"))
        self.assertEqual((status, error), (FAILED, "the files can't be kept: not a directory"))
        self.assertEqual(self.state(), (pid, "run one"))

    def test_words_that_are_wrong(self):
        for words, status in ((["--run", ""], 2), (["--run", "a 'b"], 2), ([], 2), (["--run", "a", "--folder", "/nowhere"], 9),
                              (["--run", "a", "--folder", self.folder, "--default", "/nowhere"], 9)):
            with self.subTest(words):
                told = subprocess.run([sys.executable, "-B", os.path.join(TOP, "tools", "collector"), *words], stderr=subprocess.PIPE, timeout=20)
                self.assertEqual(told.returncode, status)
                self.assertNotIn(b"Traceback", told.stderr)

    def bring_first(self, content):
        os.makedirs(self.path("opamp.d", "config"))
        self.bring({"c.conf": content})

    def test_a_status_that_was_taken_away_is_written_again(self):
        self.start()
        name = self.begin("run", "one")
        self.assertEqual(self.outcome(name), (APPLIED, ""))
        os.unlink(self.path("opamp.d", "status", "trial"))
        os.unlink(self.path("opamp.d", "status", "status.pb"))
        self.until(lambda: self.report() and self.report().remote is None, 5)
        os.unlink(self.path("opamp.d", "status", "status.pb"))
        self.until(self.report, 5)

    def test_a_second_one_over_the_same_agent_isnt_let_in(self):
        self.start("--own", self.path("mine"))
        self.until(self.report)
        os.makedirs(self.path("elsewhere"))
        # The last one is over another agent, with this one's own folder.
        for words in ((), ("--own", self.path("other")), ("--own", self.path("mine")), ("--folder", self.path("elsewhere"), "--own", self.path("mine"))):
            with self.subTest(words):
                second = Program(self.folder, *words)
                self.addCleanup(second.process.wait)
                self.addCleanup(second.process.terminate)
                self.assertEqual(second.wait(), 3)

    def test_what_is_said_of_the_agent(self):
        options = self.path("options")
        with open(options, "w") as out:
            out.write("# of a test\n\nname my-collector\nattribute deployment=test\n")
        self.start(f"@{options}", "--capability", "reports-health", "--capability", "accepts-config")
        report = self.until(self.report)
        self.assertEqual(field(report.bytes, 4, 0), 0x802)
        service = part(part(report.bytes, 3), 1)
        self.assertEqual((text(field(service, 1)), text(field(part(service, 2), 1))), ("service.name", "my-collector"))
        self.assertIn(b"deployment", part(report.bytes, 3))


if __name__ == "__main__":
    unittest.main()
