"""Where a wanted state comes from: a folder, and etcd by a member that is played."""
import contextlib
import os
import sys
import tempfile
import time
import unittest

sys.path.insert(0, os.path.dirname(os.path.dirname(os.path.abspath(__file__))))

from played_etcd import PlayedMember, PlayedStore
from gisavelom_operator.etcd import Changed, Etcd, Member
from gisavelom_operator.problems import NoServer, NotHere, NotRight, NotUnderstood, Refused, WordsRefused
from gisavelom_operator.sources import EtcdSource, Folder


class Folders(unittest.TestCase):
    def setUp(self):
        made = tempfile.TemporaryDirectory()
        self.addCleanup(made.cleanup)
        self.path = made.name
        self.write("table", b"* some/agent.yaml")
        self.write("some/agent.yaml", b"k: v")
        self.pauses = []
        self.folder = Folder(self.path, self.pauses.append)

    def write(self, name, content):
        path = os.path.join(self.path, name)
        os.makedirs(os.path.dirname(path), exist_ok=True)
        with open(path, "wb") as file:
            file.write(content)

    def test_what_stands_there(self):
        line, = self.folder.read().lines
        self.assertEqual(line.order, "agent.yaml text/yaml 6b3a2076")
        self.assertTrue(self.folder.is_as_read())

    def test_what_changes(self):
        self.folder.read()
        for change in (lambda: self.write("some/agent.yaml", b"k: wide"), lambda: self.write("table", b"* some/agent.yaml as x"),
                       lambda: os.replace(os.path.join(self.path, "other"), os.path.join(self.path, "some/agent.yaml")),
                       lambda: os.unlink(os.path.join(self.path, "some/agent.yaml"))):
            with self.subTest(change):
                self.write("other", b"k: wide")
                self.assertTrue(self.folder.is_as_read())
                change()
                self.assertFalse(self.folder.is_as_read())
                with contextlib.suppress(NotRight):
                    self.folder.read()

    def test_a_file_that_comes(self):
        os.unlink(os.path.join(self.path, "some/agent.yaml"))
        with self.assertRaisesRegex(NotRight, "table, line 1: there is no file some/agent.yaml"):
            self.folder.read()
        self.assertTrue(self.folder.is_as_read())
        self.write("some/agent.yaml", b"k: v")
        self.assertFalse(self.folder.is_as_read())

    def test_a_checkout_under_way_is_not_taken_in_half(self):
        steps = [lambda: self.write("some/agent.yaml", b"new"), lambda: self.write("table", b"* some/agent.yaml as new"), lambda: None]
        folder = Folder(self.path, lambda _: steps.pop(0)())
        self.assertEqual([line.order for line in folder.read().lines], ["new - 6e6577"])
        self.assertEqual(steps, [])

    def test_a_folder_that_never_stands_still(self):
        numbers = iter(range(10_000))
        with self.assertRaisesRegex(NotRight, "changes all the time"):
            Folder(self.path, lambda _: self.write("some/agent.yaml", str(next(numbers)).encode())).read()

    def test_no_folder(self):
        with self.assertRaisesRegex(NotHere, "/nowhere/table can't be read: no such file"):
            Folder("/nowhere").read()


class WithEtcd(unittest.TestCase):
    def setUp(self):
        self.store = PlayedStore()
        self.members = []

    def member(self):
        member = PlayedMember(self.store)
        self.members.append(member)
        self.addCleanup(member.end)
        return member

    def etcd(self, *members, prefix="w/"):
        return Etcd([Member.read(getattr(member, "url", member)) for member in members], prefix, 5.0)


class Keys(WithEtcd):
    def test_reading(self):
        self.store.put(table=b"* a", a=b"\0\xff")
        self.store.keys[b"w0"] = self.store.keys[b"v"] = b"not below", 2
        keys = self.etcd(self.member()).read()
        self.assertEqual({path: (key.value, key.revision) for path, key in keys.keys.items()}, {"table": (b"* a", 2), "a": (b"\0\xff", 2)})
        self.assertEqual((keys.revision, self.etcd(self.member(), prefix="x/").read().keys), (2, {}))

    def test_a_change_of_what_was_read(self):
        self.store.put(table=b"* a", a=b"1", old=b"")
        etcd = self.etcd(self.member())
        etcd.swap(etcd.read(), {"a": b"2", "b": b""}, ["old"], "table")
        self.assertEqual(self.store.values(), {"w/table": b"* a", "w/a": b"2", "w/b": b""})
        self.assertEqual({revision for _, revision in self.store.keys.values()}, {3})

    def test_the_first_change(self):
        etcd = self.etcd(self.member())
        etcd.swap(etcd.read(), {"table": b""}, [], "table")
        self.assertEqual(self.store.values(), {"w/table": b""})

    def test_what_another_has_changed_is_not_written_over(self):
        etcd = self.etcd(self.member())
        for before in (lambda: self.store.put(a=b"other"), lambda: self.store.put(table=b"other"), lambda: self.store.put(new=b""),
                       lambda: self.store.delete("table"), lambda: (self.store.delete("b"), self.store.put(table=b"* a"))):
            with self.subTest(before):
                self.store.put(table=b"* a", a=b"1", b=b"1")
                read = etcd.read()
                self.store.before = before
                with self.assertRaises(Changed):
                    etcd.swap(read, {"a": b"2"}, [], "table")
                self.assertNotEqual(self.store.values()["w/a"], b"2")

    def test_one_change_has_a_hundred_keys_at_most(self):
        etcd = self.etcd(self.member())
        with self.assertRaisesRegex(Refused, "101 keys would change, and one change has 100 at most"):
            etcd.swap(etcd.read(), {str(number): b"" for number in range(101)}, [], "table")

    def test_members_are_asked_in_turn(self):
        self.store.put(table=b"")
        ended, member = self.member(), self.member()
        ended.end()
        etcd = self.etcd(ended, member)
        self.assertEqual((list(etcd.read().keys), list(etcd.read().keys)), (["table"], ["table"]))
        member.fails = 503, '{"error": "etcdserver: request timed out"}'
        with self.assertRaisesRegex(NoServer, "says: etcdserver: request timed out; no etcd at .*: connection refused"):
            etcd.read()

    def test_a_change_is_sent_once(self):
        self.store.put(table=b"", a=b"1")
        first, second = self.member(), self.member()
        etcd = self.etcd(first, second)
        read = etcd.read()
        first.ends_behind = "/v3/kv/txn"
        with self.assertRaisesRegex(NoServer, "the change may have been made all the same"):
            etcd.swap(read, {"a": b"2"}, [], "table")
        self.assertEqual((self.store.values()["w/a"], second.asked), (b"2", []))

    def test_a_read_whose_answer_is_lost(self):
        self.store.put(table=b"")
        first = self.member()
        first.ends_behind = "/v3/kv/range"
        self.assertEqual(list(self.etcd(first, self.member()).read().keys), ["table"])

    def test_what_is_no_etcd(self):
        member = self.member()
        for fails, kind, why in [((404, "Not Found"), NotUnderstood, "says 404 to a question for etcd"), ((200, "[]"), NotUnderstood, "no answer of etcd's"),
                                 ((200, "x"), NotUnderstood, "no answer of etcd's"),
                                 ((400, '{"error": "etcdserver: user name is empty"}'), Refused, "says: etcdserver: user name is empty")]:
            member.fails = fails
            with self.subTest(fails), self.assertRaisesRegex(kind, why):
                self.etcd(member).read()

    def test_urls(self):
        for url, member in (("http://h", Member("h", 2379, False)), ("http://h:1/", Member("h", 1, False)), ("https://[::1]:2", Member("::1", 2, True))):
            self.assertEqual(Member.read(url), member)
        for url in ("", "h:1", "ftp://h", "http://", "http://h/v3", "http://h:x", "http://h:70000", "http://u@h", "http://h?x"):
            with self.subTest(url), self.assertRaises(WordsRefused):
                Member.read(url)


class Watching(WithEtcd):
    def source(self, *members, watches=True):
        self.now = 0.0
        source = EtcdSource(self.etcd(*members), watches, lambda: self.now)
        self.addCleanup(source.close)
        return source

    def until(self, so, seconds=10):
        end = time.monotonic() + seconds
        while not so():
            self.assertLess(time.monotonic(), end)
            time.sleep(0.01)

    def settled(self, source):
        """The state read, and the watch's first word taken."""
        state = source.read()
        self.until(lambda: "/v3/watch" in [path for member in self.members for path in member.asked])
        self.until(source.may_have_changed)
        self.assertTrue(source.is_as_read())
        self.assertFalse(source.may_have_changed())
        return state

    def test_a_change_is_told_at_once(self):
        self.store.put(table=b"* a", a=b"1")
        source = self.source(self.member())
        self.assertEqual(self.settled(source).lines[0].order, "a - 31")
        self.store.put(a=b"2")
        source.wait(10)
        self.assertTrue(source.may_have_changed())
        self.assertFalse(source.is_as_read())
        self.assertEqual(source.read().lines[0].order, "a - 32")
        self.assertTrue(source.is_as_read())

    def test_without_a_watch_it_is_asked_again(self):
        self.store.put(table=b"* a", a=b"1")
        source = self.source(self.member(), watches=False)
        source.read()
        self.store.delete("a")
        self.assertFalse(source.may_have_changed())
        self.now += 5.0
        self.assertTrue(source.may_have_changed())
        self.assertFalse(source.is_as_read())
        with self.assertRaises(NotRight):
            source.read()

    def test_a_watch_that_is_lost_is_begun_at_another_member(self):
        self.store.put(table=b"* a", a=b"1")
        first, second = self.member(), self.member()
        source = self.source(first, second)
        self.settled(source)
        first.fails = 503, '{"error": "etcdserver: no leader"}'
        self.store.put(a=b"2")
        self.until(lambda: "/v3/watch" in second.asked)
        self.until(source.may_have_changed)
        self.assertFalse(source.is_as_read())
        self.assertEqual(source.read().lines[0].order, "a - 32")

    def test_where_nobody_answers_nothing_is_known(self):
        member = self.member()
        self.store.put(table=b"")
        source = self.source(member)
        self.settled(source)
        member.fails = 503, '{"error": "etcdserver: request timed out"}'
        with self.assertRaises(NoServer):
            source.is_as_read()


if __name__ == "__main__":
    unittest.main()
