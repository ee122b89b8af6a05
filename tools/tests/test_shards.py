"""Four archives beside one of the same documents."""

from __future__ import annotations

import os
import random
import shlex
import shutil
import unittest

from support import DAY, ArchiveCase, answers, find_program, needs, sample
from tt_archive_tools import commands, timeline
from tt_archive_tools.replies import Pieces, Rows

QUESTIONS = 200


class Shards(ArchiveCase):
    def setUp(self) -> None:
        super().setUp()
        self.versions = sample(seed=11, documents=40, count=300)
        self.fill(self.versions)
        self.shards = self.folder / "shards"

    def questions(self) -> list[bytes]:
        """Finds, windows and documents, at chance times."""
        chance = random.Random(5)
        first, last = self.versions[0].time, self.versions[-1].time + DAY
        forms = ["{0}"] + (["{0} {1}", "{0} or {1} and not {2}", "not {0}", "({0} or {1}) {2}"] if answers("queries") else [])
        questions = []
        for index in range(QUESTIONS):
            expr = chance.choice(forms).format(*(f"w{chance.randrange(11)}" for _ in range(3)))
            start, end = sorted(chance.sample(range(first - DAY, last), 2))
            if index % 10 == 9 and answers("between"):
                questions.append(commands.between(start, end, expr))
            elif index % 10 == 8:
                questions.append(commands.show(chance.randrange(1, 42), start))
            else:
                questions.append(commands.find(start, expr))
        return questions

    def assert_as_one(self, reads: bool) -> None:
        questions = self.questions()
        self.assertEqual(len(questions), QUESTIONS)
        rows = 0
        with self.open() as one, self.open(self.shards) as four:
            self.assertEqual(len(four.shards), 4)
            for question in questions:
                if question.startswith(b"show"):
                    doc = int(question.split()[1])
                    self.assertEqual(four.ask_side(four.side_of(doc), question), one.ask_side(0, question))
                    continue
                found, wanted = four.ask_rows(question), one.ask_rows(question)
                self.assertEqual(found.rows, wanted.rows, question)
                if reads:
                    self.assertEqual(found.read, wanted.read, question)
                rows += len(found.rows)
        self.assertGreater(rows, 1_000)

    def test_an_archive_that_is_split(self) -> None:
        done = self.tt("shard", 4, self.shards)
        self.assertEqual(done.stdout, f"300 versions and deletions are in 4 archives in {self.shards}\n")
        self.assert_as_one(reads=True)
        whole = self.tt("find", "w1", "--at", "1972-10-20").stdout
        self.assertEqual(self.tt("-C", self.shards, "find", "w1", "--at", "1972-10-20").stdout, whole)
        self.assertEqual(self.tt("-C", self.shards, "status").stdout.splitlines()[0], "shards     4")
        self.assertIn("has an archive already", self.tt("shard", 4, self.shards, status=1).stderr)

    @needs("plans")
    def test_with_plans_the_rows_are_the_same(self) -> None:
        self.tt("shard", 4, self.shards)
        for word in ("w1", "w2", "w3"):
            self.tt("plan", word, "guarantee", "3/2")
            self.tt("-C", self.shards, "plan", word, "guarantee", "3/2")
        self.assert_as_one(reads=False)
        with self.open(self.shards) as four:
            plans = four.ask_all(commands.certificate("w1"))
        self.assertTrue(all(isinstance(plan, Pieces) for plan in plans))
        self.assertRegex(self.tt("-C", self.shards, "status").stdout, r"plan       w1 guarantee 3/2: \d+ segments")

    @needs("between", "sublists")
    def test_a_timeline_of_shards_tells_what_they_read(self) -> None:
        self.tt("shard", 4, self.shards)
        self.tt("-C", self.shards, "plan", "w1", "guarantee", "3/2")
        with self.open(self.shards) as four, self.open() as one:
            drawn, whole = timeline.gather(four, "w1"), timeline.gather(one, "w1")
            self.assertEqual((drawn.counts, drawn.moves, drawn.whole), (whole.counts, whole.moves, whole.whole))
            self.assertEqual(len(drawn.horizons), 4)
            for time in (*drawn.horizons, *(move.time for move in drawn.moves[::5])):
                read = four.ask_rows(commands.find(time, "w1")).read
                self.assertEqual([cost for start, cost in drawn.costs if start <= time][-1], read, time)

    def test_an_import_into_shards(self) -> None:
        tree = self.folder / "tree"
        for version in self.versions:
            if version.text is not None:
                path = tree / f"{version.name}-{version.time}.txt"
                path.parent.mkdir(exist_ok=True)
                path.write_text(version.text)
                os.utime(path, (version.time, version.time))
        shutil.rmtree(self.archive)
        self.tt("init", self.archive)
        self.tt("shard", 4, self.shards, "--empty")
        ones, fours = (self.tt("-C", folder, "import", "folder", tree).stdout for folder in (self.archive, self.shards))
        self.assertEqual(fours, ones)
        question = commands.find(self.versions[150].time, "w1")
        with self.open() as one, self.open(self.shards) as four:
            wanted = one.ask_rows(question)
            self.assertEqual(four.ask_rows(question), wanted)
            self.assertEqual(four.last_time(), one.last_time())
        self.assertIsInstance(wanted, Rows)

    def test_a_shard_that_stops_before_the_others_misses_nothing(self) -> None:
        tree = self.folder / "tree"
        tree.mkdir()
        wanted = {f"{index}.txt": f"text {index} " * 20 for index in range(200)}
        for index, (name, text) in enumerate(wanted.items()):
            (tree / name).write_text(text)
            os.utime(tree / name, (DAY + 60 * index, DAY + 60 * index))
        self.tt("shard", 4, self.shards, "--empty")
        for size in (0, 900, 2_300):
            cut = f"case $PWD in *shard-1) n={size};; *) n=1000000;; esac; dd bs=1 count=$n status=none"
            stopping = f"sh -c '{cut} | {shlex.join(find_program(None))}'"
            self.tt("-C", self.shards, "import", "folder", tree, status=1, TT_ARCHIVE=stopping)
        (self.folder / "other").mkdir()
        said = self.tt("-C", self.shards, "import", "folder", self.folder / "other", "--dry-run").stderr
        self.assertIn(f"warning: an import was stopped; what shards miss of it is lost if it isn't imported first: folder {tree}\n", said)
        done = self.tt("-C", self.shards, "import", "folder", tree)
        self.assertNotIn("warning", done.stderr)
        self.assertNotIn("refused", done.stdout)
        self.assertNotIn("warning", self.tt("-C", self.shards, "import", "folder", self.folder / "other").stderr)
        self.archive = self.shards
        self.assertEqual(self.texts_at(2 * DAY), [wanted])

    @unittest.skipUnless(shutil.which("parallel"), "GNU parallel isn't installed")
    def test_side_by_side_with_parallel(self) -> None:
        self.tt("shard", 4, self.shards)
        whole = self.tt("find", "w1", "--at", "1972-10-20").stdout
        for how in (["--parallel"], ["--sshlogin", ":"]):
            self.assertEqual(self.tt("-C", self.shards, "find", "w1", "--at", "1972-10-20", *how).stdout, whole)
        broken = "sh -c 'echo tt_archive: disk fault >&2; exit 4'"
        done = self.tt("-C", self.shards, "find", "w1", "--parallel", status=1, TT_ARCHIVE=broken)
        self.assertEqual(done.stderr, f"tt: {self.shards.resolve()}/shard-0: tt_archive: disk fault\n")

    def test_shards_on_other_machines(self) -> None:
        self.tt("shard", 4, self.shards)
        whole = self.tt("find", "w1", "--at", "1972-10-20").stdout
        (self.folder / "bin").mkdir()
        ssh = self.folder / "bin" / "ssh"
        ssh.write_text(f'#!/bin/sh\n# Runs here what is meant for there.\necho "$1" >>{self.folder}/logins\nshift\n[ "$1" = -- ] && shift\nexec sh -c "$*"\n')
        ssh.chmod(0o755)
        path = {"PATH": f"{ssh.parent}:{os.environ['PATH']}", "SHELL": "/bin/false"}
        (self.shards / "shards.tsv").write_text("".join(
            f"{self.shards}/shard-{index}\tfar\n" if index % 2 else f"shard-{index}\n" for index in range(4)
        ))  # fmt: skip
        ways: list[list[str]] = [[], ["--parallel"]] if shutil.which("parallel") else [[]]
        for way in ways:
            self.assertEqual(self.tt("-C", self.shards, "find", "w1", "--at", "1972-10-20", *way, **path).stdout, whole)
        self.assertEqual(set((self.folder / "logins").read_text().split()), {"far"})
        self.assertIn("of which 2 on other machines", self.tt("-C", self.shards, "status", **path).stdout)

    @unittest.skipIf(shutil.which("parallel"), "GNU parallel is installed")
    def test_without_parallel(self) -> None:
        self.tt("shard", 4, self.shards)
        done = self.tt("-C", self.shards, "find", "w1", "--parallel", status=1)
        self.assertEqual(done.stderr, "tt: there is no GNU parallel: install the package parallel\n")
