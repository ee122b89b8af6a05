"""Imports in batches: what is refused of them, stops, archives without the mark, and programs that know no batch."""

from __future__ import annotations

import os
import shlex
import shutil
import signal
import subprocess
import sys
import time
import tracemalloc
import unittest
from pathlib import Path
from unittest import mock

from support import DAY, TOOLS, ArchiveCase, Version, changes_of, find_program, needs
from tt_archive_tools import sending
from tt_archive_tools.changes import Change, Notes
from tt_archive_tools.collection import Collection
from tt_archive_tools.feeding import Feeder, Progress
from tt_archive_tools.journal import HEADER, Entry, entries_from, summary
from tt_archive_tools.program import Shard
from tt_archive_tools.replies import Refused
from tt_archive_tools.sides import takes_batches
from tt_archive_tools.times import show_time

START = 13_717 * DAY
FAKE = "fake_tt_archive" in os.environ.get("TT_ARCHIVE", "")
FILES = 300


class Steps(Progress):
    """Keeps what the line on a terminal would tell."""

    def __init__(self, shown: bool) -> None:
        super().__init__(shown)
        self.told: list[tuple[int, int]] = []

    def step(self, count: int, at: int) -> None:
        self.told.append((count, at))


class Batched(ArchiveCase):
    def tree(self, count: int, size: int = 10) -> Path:
        """Files that change a second apart."""
        tree = self.folder / "tree"
        tree.mkdir(exist_ok=True)
        for index in range(count):
            (tree / f"{index}.txt").write_text(f"text {index} w{index % 5} " * size)
            os.utime(tree / f"{index}.txt", (START + index, START + index))
        return tree

    def entries(self) -> list[Entry]:
        """The archive's entries, batches whole."""
        with open(self.archive / "archive.journal", "rb") as file:
            file.seek(len(HEADER))
            return list(entries_from(file, len(HEADER), "journal", texts=True))

    def sizes(self) -> list[int]:
        """How many changes each entry has; 0 of the mark."""
        return [0 if entry.marks else len(entry.acts) or 1 for entry in self.entries()]

    def changes(self) -> list[tuple[int, int, bytes, bool]]:
        return changes_of((self.archive / "archive.journal").read_bytes())

    def one_by_one(self, tree: Path) -> list[tuple[int, int, bytes, bool]]:
        """The changes of the same import into an archive without the mark."""
        kept, self.archive = self.archive, self.folder / "unmarked"
        self.tt("init", self.archive, "--format", 1)
        self.tt("import", "folder", tree)
        changes, self.archive = self.changes(), kept
        return changes

    def new_archive(self, *words: object, **environment: str) -> None:
        shutil.rmtree(self.archive)
        self.tt("init", self.archive, *words, **environment)


@needs("batches")
class Imported(Batched):
    def test_an_import_comes_in_batches(self) -> None:
        tree = self.tree(FILES)
        done = self.tt("import", "folder", tree)
        self.assertEqual(done.stdout, f"{FILES} versions and 0 deletions are in the archive\n")
        self.assertEqual(self.sizes(), [0, 16, 32, 64, 128, 60])
        self.assertEqual(self.changes(), self.one_by_one(tree))
        found = summary([Shard(self.archive)])
        self.assertEqual((found.arrivals, found.documents, found.first, found.last), (FILES, FILES, START, START + FILES - 1))
        self.assertIn(f"entries    {FILES} versions, 0 deletions, 0 plans\n", self.tt("status").stdout)
        [texts] = self.texts_at(START + DAY)
        self.assertEqual(texts, {file.name: file.read_text() for file in tree.iterdir()})
        # More of it, of which one alone is no batch.
        self.tree(FILES + 1)
        self.assertIn("1 version and 0 deletions are in the archive\n", self.tt("import", "folder", tree).stdout)
        self.assertEqual(self.sizes()[-2:], [60, 1])

    def test_a_batch_is_full_by_its_changes_or_its_bytes(self) -> None:
        self.tt("import", "folder", self.tree(3_100, size=1))
        self.assertEqual(self.sizes(), [0, 16, 32, 64, 128, 256, 512, 1_000, 1_000, 92])
        self.new_archive()
        shutil.rmtree(self.folder / "tree")
        for index in range(40):
            file = self.tree(0) / f"{index}.txt"
            file.write_bytes(b" " * 400_000)
            os.utime(file, (START + index, START + index))
        self.tt("import", "folder", self.folder / "tree")
        self.assertEqual(self.sizes(), [0, 3, 20, 17])

    def test_an_archive_without_the_mark_gets_changes_one_by_one(self) -> None:
        tree = self.tree(40)
        for words in (["--format", 1], ["--format=1"]):
            self.new_archive(*words)
            self.tt("import", "folder", tree)
            self.assertEqual(self.sizes(), [1] * 40)

    def test_init_marks_what_is_new(self) -> None:
        self.assertEqual(self.sizes(), [0])
        self.tt("init", self.archive)
        self.assertEqual(self.sizes(), [0])
        self.new_archive("--format", 1)
        self.assertEqual(self.sizes(), [])
        self.fill([Version(START, "one", "text")])
        self.tt("init", self.archive)
        self.assertEqual(self.sizes(), [1])
        for _ in range(2):
            self.tt("init", "--format", 2, self.archive)
            self.assertEqual(self.sizes(), [1, 0])
        for words, marks in ((["--empty"], [[0], [0]]), (["--empty", "--format", 1], [[], []])):
            shutil.rmtree(self.folder / "two", ignore_errors=True)
            self.tt("shard", 2, self.folder / "two", *words)
            kept, found = self.archive, []
            for number in range(2):
                self.archive = self.folder / "two" / f"shard-{number}"
                found.append(self.sizes())
            self.archive = kept
            self.assertEqual(found, marks)

    def test_sources_together_share_batches(self) -> None:
        one, two = self.folder / "one", self.folder / "two"
        for tree, first in ((one, 0), (two, 1)):
            tree.mkdir()
            (tree / "early.txt").write_text("early")
            os.utime(tree / "early.txt", (START - 2 + first, START - 2 + first))
            self.tt("import", "folder", tree, "--prefix", tree.name)
            for index in range(20):
                (tree / f"{index}.txt").write_text(f"text {index}")
                os.utime(tree / f"{index}.txt", (START + 2 * index + first, START + 2 * index + first))
        self.assertEqual(self.tt("refresh").stdout.count(": 20 versions and 0 deletions are in the archive\n"), 2)
        # (Each of them sends its last one again, which is refused.)
        self.assertEqual(self.sizes(), [0, 1, 1, 15, 25])
        times = [entry[1] for entry in self.changes()]
        self.assertEqual(times, sorted(times))

    def feed(self, changes: list[Change], **environment: str) -> tuple[Feeder, list[str], int]:
        """Feeds changes; gives what was told, and how many changes were sent, some of them again."""
        told: list[str] = []
        sent = 0

        def send(collection: Collection, side: int, script: bytes, *rest: object) -> None:
            nonlocal sent
            sent += script.count(b"arrive ") + script.count(b"delete ")
            real(collection, side, script, *rest)

        real = Collection.send
        with mock.patch.dict(os.environ, environment), mock.patch.object(Collection, "send", send), self.open() as collection:
            steps = Steps(False)
            feeder = Feeder(collection, "made", "made", Notes(told.append), steps)
            feeder.feed(changes)
        self.assertEqual((sum(count for count, _ in steps.told), steps.told[-1][1]), (len(changes), changes[-1].time))
        return feeder, told, sent

    @unittest.skipUnless(FAKE, "only the stand-in has room for so few documents")
    def test_each_refusal_is_told_of_its_change(self) -> None:
        """There is room for one document, and some changes are of others."""
        for step in (997, 7, 2, 1):
            with self.subTest(step):
                self.new_archive()
                names = ["one" if index == 0 or index % step else f"other {index}" for index in range(1_200)]
                changes = [Change(START + at, name, b"text %d" % at, f"at {at}") for at, name in enumerate(names)]
                feeder, told, sent = self.feed(changes, FAKE_DOCUMENTS="1")
                refused = [at for at, name in enumerate(names) if name != "one"]
                self.assertEqual(feeder.tally.arrived, len(names) - len(refused))
                self.assertEqual(feeder.tally.refused, {"Full": len(refused)})
                lines = [f"{show_time(START + at)} other {at} (at {at}): refused: Full documents 1" for at in refused[:10]]
                self.assertEqual([line for line in told if "refused: Full" in line][:10], lines)
                wanted = [(1, START + at, b"text %d" % at, True) for at, name in enumerate(names) if name == "one"]
                self.assertEqual(self.changes(), wanted)
                self.assertLess(sent, 8 * len(names))

    def test_ends_of_documents_that_have_none(self) -> None:
        """What may be refused is among what is not."""
        with self.open() as collection:
            for index in range(50):
                collection.names.give(f"gone {index}")
            collection.names.keep()
        changes = []
        for index in range(50):
            changes += [Change(START + index, f"gone {index}", None, "there"), Change(START + index, f"new {index}", b"text", "there")]
        feeder, told, _ = self.feed(changes)
        self.assertEqual((feeder.tally.arrived, feeder.tally.refused, told), (50, {}, []))
        self.assertEqual(feeder._notes.counts, {"ends of documents that had none": 50})
        self.assertEqual([time for _, time, _, _ in self.changes()], [START + index for index in range(50)])

    def test_what_is_there_already_is_told(self) -> None:
        """All is of the second with which the archive ends, so it goes one by one."""
        tree = self.tree(FILES)
        for step in (97, 7, 1):
            with self.subTest(step):
                self.new_archive()
                for index in range(FILES):
                    os.utime(tree / f"{index}.txt", (START, START))
                there = range(0, FILES, step)
                self.fill([Version(START, f"{index}.txt", "another text") for index in there])
                done = self.tt("import", "folder", tree, status=1 if step == 1 else 0)
                self.assertIn(f"{FILES - len(there)} versions and 0 deletions are in the archive\nrefused, SameTime: {len(there)}\n", done.stdout)
                told = [line for line in done.stderr.splitlines() if line.endswith(": refused: SameTime")]
                self.assertEqual(len(told), min(10, len(there)), done.stderr)
                [texts] = self.texts_at(START)
                others = {f"{index}.txt": f"text {index} w{index % 5} " * 10 for index in range(FILES) if index not in there}
                self.assertEqual({name: text for name, text in texts.items() if text != "another text"}, others)

    def test_the_order_stays(self) -> None:
        """Versions of few documents in a row, of which some are refused in the midst of a batch."""
        tree = self.folder / "snapshots"
        for index in range(60):
            day = tree / f"2007-{1 + index // 28:02}-{1 + index % 28:02}"
            day.mkdir(parents=True)
            for name in "abcd":
                (day / name).write_text(f"{name} of {index}")
        self.fill([Version(13_514 * DAY + 0, name, "before") for name in "bd"])
        done = self.tt("import", "folder", tree)
        self.assertIn("refused, SameTime: 2\n", done.stdout)
        self.assertIn("238 versions and 0 deletions are in the archive\n", done.stdout)
        for index in (0, 1, 30, 59):
            at = (13_514 + (index // 28) * 31 - (3 if index >= 56 else 0) + index % 28) * DAY
            [texts] = self.texts_at(at)
            wanted = {name: "before" if name in "bd" and index == 0 else f"{name} of {index}" for name in "abcd"}
            self.assertEqual(texts, wanted, index)

    def test_a_stop_anywhere_loses_nothing(self) -> None:
        tree = self.tree(120)
        kept = self.folder / "kept"
        shutil.copytree(self.archive, kept)
        for size in (0, 1, 30, 90, 500, 1_999, 6_000, 9_000, 13_001, 16_000):
            with self.subTest(size):
                shutil.rmtree(self.archive)
                shutil.copytree(kept, self.archive)
                stopping = f"sh -c 'dd bs=1 count={size} status=none | {shlex.join(find_program(None))}'"
                self.tt("import", "folder", tree, status=1, TT_ARCHIVE=stopping)
                before = self.changes()
                self.assertIn(len(before), (0, 16, 48, 112, 120))
                done = self.tt("import", "folder", tree)
                self.assertNotIn("refused", done.stdout)
                self.assertEqual(self.changes()[: len(before)], before)
                self.assertEqual(self.changes(), [(index + 1, START + index, (tree / f"{index}.txt").read_bytes(), True) for index in range(120)])

    def test_a_stop_within_a_second_loses_nothing(self) -> None:
        """All is of one second, so that nothing tells by its time how far it came."""
        tree = self.tree(200)
        for file in tree.iterdir():
            os.utime(file, (START, START))
        stopping = f"sh -c 'dd bs=1 count=9000 status=none | {shlex.join(find_program(None))}'"
        self.tt("import", "folder", tree, status=1, TT_ARCHIVE=stopping)
        self.assertEqual(len(self.changes()), 48)
        done = self.tt("import", "folder", tree)
        self.assertEqual(done.stdout, "152 versions and 0 deletions are in the archive\nimported before, until 2007-07-23: 48 changes\n")
        [texts] = self.texts_at(START)
        self.assertEqual(texts, {file.name: file.read_text() for file in tree.iterdir()})

    def test_a_killed_import_goes_on(self) -> None:
        tree = self.tree(FILES)
        slow = f"sh -c '{{ dd bs=1 count=9000 status=none; sleep 1; cat; }} | {shlex.join(find_program(None))}'"
        run = [sys.executable, str(TOOLS / "tt"), "-C", str(self.archive), "import", "folder", str(tree)]
        journal = self.archive / "archive.journal"
        with subprocess.Popen(run, env={**os.environ, "TT_ARCHIVE": slow}, stdout=subprocess.PIPE, stderr=subprocess.PIPE) as tt:
            until = time.monotonic() + 30
            while journal.stat().st_size < 1_000 and time.monotonic() < until:
                time.sleep(0.01)
            tt.send_signal(signal.SIGKILL)
            tt.communicate()
        done = self.tt("--wait", "60s", "import", "folder", tree)
        self.assertNotIn("refused", done.stdout)
        self.assertEqual(self.changes(), self.one_by_one(tree))

    def test_what_is_kept_is_bounded_by_two_batches(self) -> None:
        """Beside what is gathered, one batch is under way, however many were sent."""
        tree = self.folder / "tree"
        tree.mkdir()
        for index in range(48):
            (tree / f"{index}.txt").write_bytes(b" " * 1_000_000)
            os.utime(tree / f"{index}.txt", (START + index, START + index))
        tracemalloc.start()
        try:
            self.tt("import", "folder", tree)
            _, most = tracemalloc.get_traced_memory()
        finally:
            tracemalloc.stop()
        self.assertEqual(self.sizes(), [0, 2, 8, 8, 8, 8, 8, 6])
        self.assertLess(most, 40_000_000)


@needs("batches")
@unittest.skipUnless(FAKE, "only the stand-in can be one that knows less")
class Older(Batched):
    """Programs that know no batch, or no mark."""

    def test_they_get_changes_one_by_one(self) -> None:
        tree = self.tree(40)
        for environment in (
            {"FAKE_WITHOUT": "batch format"},  # the items of a batch are carried out one by one
            {"FAKE_WITHOUT": "batches format"},
            {"FAKE_WITHOUT": "batches"},
            {"FAKE_BREAKS": "batch format"},
        ):
            with self.subTest(**environment):
                self.new_archive(**environment)
                self.assertEqual(self.sizes(), [0] if environment.get("FAKE_WITHOUT") == "batches" else [])
                done = self.tt("import", "folder", tree, **environment)
                self.assertEqual(done.stdout, "40 versions and 0 deletions are in the archive\n")
                self.assertEqual([size for size in self.sizes() if size], [1] * 40)

    def test_each_is_asked_to_the_end_of_its_replies(self) -> None:
        for environment, wanted in (({}, True), ({"FAKE_WITHOUT": "batch"}, False), ({"FAKE_WITHOUT": "batches"}, False)):
            with self.subTest(**environment), mock.patch.dict(os.environ, environment), self.open() as collection:
                [side] = collection._sides
                self.assertEqual(takes_batches(side.links[0]), wanted)
                self.assertEqual(collection.takes_batches(0), wanted)
                self.assertIsNone(collection.last_time())


class Left(unittest.TestCase):
    """What is sent again of a batch that is refused."""

    def setUp(self) -> None:
        self.told: list[tuple[object, object]] = []

    def begin(self) -> None:
        """It is an origin of changes."""

    def answered(self, token: object, reply: object) -> None:
        self.told.append((token, reply))

    def turn(self, count: int, apart: int = 3) -> sending._Turn:
        return sending._Turn([sending._Act(0, b"", number, self) for number in range(1, count + 1)], True, apart)

    def left(self, turn: sending._Turn, refusal: Refused) -> list[tuple[list[object], bool, int]]:
        return [([act.token for act in each.acts], each.together, each.apart) for each in sending._left_of(turn, refusal)]

    def test_the_others_in_their_order(self) -> None:
        left = self.left(self.turn(8), Refused(2, "TimeBack", "10 in 3"))
        self.assertEqual(left, [([1, 2], True, sending._APART), ([4, 5, 6], False, sending._APART), ([7, 8], True, 6)])
        self.assertEqual(self.told, [(3, Refused(2, "TimeBack", "10"))])
        self.assertEqual(self.left(self.turn(2), Refused(4, "NoDocument", "in 2")), [([1], True, sending._APART)])
        self.assertEqual(self.left(self.turn(1), Refused(10, "Full", "documents 1048576 in 1")), [])
        self.assertEqual(self.told[1:], [(2, Refused(4, "NoDocument", "")), (1, Refused(10, "Full", "documents 1048576"))])

    def test_where_there_is_no_room_for_all(self) -> None:
        self.assertEqual(self.left(self.turn(3), Refused(10, "Full", "journal 1099511627776")), [([1, 2, 3], False, sending._APART)])
        self.assertEqual(self.told, [])

    def test_what_no_batch_is_answered(self) -> None:
        for refusal in (Refused(1, "Line", ""), Refused(16, "BatchLine", "1"), Refused(18, "OldFormat", ""), Refused(4, "NoDocument", "in 4")):
            with self.assertRaisesRegex(Exception, "to a batch of 3 changes"):
                self.left(self.turn(3), refusal)


if __name__ == "__main__":
    unittest.main()
