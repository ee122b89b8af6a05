"""`tt share` and `tt tradeoff --log` beside what questions read; worked rows of shares and of first rows in the stand-in and in the model."""

from __future__ import annotations

import os
import re
import subprocess
import sys
import unittest
import xml.etree.ElementTree as ElementTree
from fractions import Fraction
from hashlib import sha256
from pathlib import Path
from tempfile import TemporaryDirectory

from model import Archive, Choice, Differs
from model.journal import BLOCKS as IN_BLOCKS
from model.journal import Place, Plan, sublist
from model.plans import GUARANTEE
from support import DAY, ArchiveCase, needs, sample
from tt_archive_tools import commands, questions, tradeoff
from tt_archive_tools.queries import asked_keys
from tt_archive_tools.replies import Pieces

STAND_IN = [sys.executable, "-S", "-E", Path(__file__).resolve().parent / "fake_tt_archive"]
FAKE = "fake_tt_archive" in os.environ.get("TT_ARCHIVE", "")
TWO_DOCUMENTS = b"arrive 1 10 1\nv\narrive 2 20 1\nv\ndelete 1 30\ndelete 2 40\n"
BLOCKS = b"format 2\nbatch 256\narrive 1 10 5\nv v v\n" + b"".join(b"arrive %d 10 1\nv\n" % doc for doc in range(2, 257)) + b"arrive 999 20 1\nx\n"
#: Scripts, each on a new archive, with the last replies, of which the stand-in has no blocks.
ROWS = [
    (TWO_DOCUMENTS + b"find 25 v\nfind 15 v\nfind 15 v\nshare 2/1 v\n", b"share v 3 4\nend 1 unit 1 budget 4 cost 4\n"),
    (
        TWO_DOCUMENTS + b"find 25 v\nfind 15 v\nfind 15 v\nshare 1/1 v V\nshare 2/1 v moon\nshare 17/1 v\n",
        b"share v 2 6\nend 1 unit 1 budget 2 cost 6\nno 13 UnknownWord in 2\nno 1 Line\n",
    ),
    (TWO_DOCUMENTS + b"find 25 v^3 or not moon\nfind 15 v or\ntop 2 15 v\nshare 2/1 V\n", b"share v 2 2\nend 1 unit 1 budget 4 cost 2\n"),
    (TWO_DOCUMENTS + b"share 16/1 v v-v\nshare 2/1 v v v x v\nshare 2/1 V v\n", b"no 7 NotOneTerm in 2\nno 13 UnknownWord in 4\nshare v 2 0\nend 1 unit 1 budget 4 cost 0\n"),
    (BLOCKS + b"best 1 15 v not x\nbest 0 15 v\nbest 1 15 or\nbest 1 15 (v)\n", b"no 20 NotDisjunction\nno 1 Line\nno 11 BadQuery 0\nno 20 NotDisjunction\n"),
    (BLOCKS + b"best 2 15 v\n", b"hit 1 3\nhit 2 1\nend 2 read 256 opened 0 of 0\n"),
    (BLOCKS + b"best 1 20 x^7 or v\n", b"hit 999 7\nend 1 read 257 opened 0 of 0\n"),
]
#: What is found by blocks, with how many of them are opened.
BY_BLOCKS = (BLOCKS + b"plan v guarantee 1/1\nbest 2 15 v\n", b"hit 1 3\nhit 2 1\nend 2 read 256 opened %d of 2\n")
LOG = """# asked
find 90000000 w1
find 1972-10-01 w1 and not w2
top 5 1972-10-01 w1^3 or w4
  best 2 1972-10-09 w2
find 1972-10-09 (w2

find 1972-10-10 w2 or w7
show 1 2
find 1972-13-10 w2
find x w2
find 99999999999 w1
"""


class WorkedRows(unittest.TestCase):
    def shown(self, script: bytes) -> bytes:
        """What the stand-in shows of a script on a new archive."""
        with TemporaryDirectory() as folder:
            return subprocess.run(STAND_IN, cwd=folder, input=script, capture_output=True).stdout

    def test_the_stand_in(self) -> None:
        for script, replies in ROWS:
            self.assertTrue(self.shown(script).endswith(b"\n" + replies), script)

    def test_the_model(self) -> None:
        for script, _ in ROWS:
            shown = self.shown(script)
            self.assertEqual(Archive().run(script, Choice([], shown)).shown, shown, script)

    def test_what_the_model_refuses(self) -> None:
        script, replies = ROWS[0]
        for wrong in (b"share v 2 6\nend 1 unit 1 budget 4 cost 6\n", b"share v 4 4\nend 1 unit 1 budget 4 cost 4\n", b""):
            shown = self.shown(script).replace(replies, wrong)
            self.assertRaises(Differs, Archive().run, script, Choice([], shown))

    def test_how_many_blocks_may_be_opened(self) -> None:
        script, replies = BY_BLOCKS
        archive = Archive()
        archive.run(BLOCKS, Choice([], b"ok 1\nok 2\nok 3\n"))
        entry = self._plan_in_blocks(archive)
        before = b"plan 4 segments 1 space 256 full 256 horizon 20\n"
        asked = script.removeprefix(BLOCKS)
        for opened in range(4):
            again = Archive()
            again.run(BLOCKS, Choice([], b"ok 1\nok 2\nok 3\n"))
            choice = Choice([*again.entries, entry], before + replies % opened)
            if opened == 1:
                self.assertEqual(again.run(asked, choice).shown, choice.shown)
            else:
                self.assertRaises(Differs, again.run, asked, choice)

    def _plan_in_blocks(self, archive: Archive) -> bytes:
        """The entry of a plan of one segment, in blocks."""
        content = sublist(archive.postings("v", 0, 20), 10, 20, IN_BLOCKS)
        return Plan(IN_BLOCKS, GUARANTEE, 0, (1, 1), 20, "v", (Place(10, 0, len(content), sha256(content).digest()),)).entry()


class Shares(ArchiveCase):
    def setUp(self) -> None:
        super().setUp()
        self.versions = sample(seed=7, documents=12, count=120)
        self.fill(self.versions)
        self.log = self.folder / "asked.log"
        self.log.write_text(LOG)
        self.last = self.versions[-1].time

    def read(self, time: int, query: str) -> int:
        with self.open() as collection:
            return collection.ask_rows(commands.find(time, query)).read

    def shares(self, *words: object) -> dict[str, list[str]]:
        rows = [line.split("\t") for line in self.tt("share", self.log, "--tsv", *words).stdout.splitlines()]
        return {word: row for word, *row in rows}

    def test_a_log(self) -> None:
        found, skipped = questions.read_log(self.log)
        self.assertEqual([time for time, _ in found], [90_000_000, *[1_004 * DAY] * 2, *[1_012 * DAY] * 2, 1_013 * DAY, 99_999_999_999])
        self.assertEqual([query for _, query in found][2:4], ["w1^3 or w4", "w2"])
        self.assertEqual(skipped, 3)
        self.assertEqual(asked_keys("red^3 or not (BLUE and red) ^5 x^0"), {"red", "blue", "5", "x", "0"})

    @needs("shares", "queries")
    def test_shares(self) -> None:
        done = self.tt("share", self.log, "--budget", "1.5", "--most", "2")
        self.assertEqual(
            done.stderr.splitlines()[-2:],
            ["tt: 3 lines of the log ask for nothing that counts", "tt: 1 question of the log is no query"],
        )
        lines = done.stdout.splitlines()
        self.assertEqual(lines[0].split(), ["word", "asked", "postings", "share", "factor", "read", "without"])
        self.assertEqual([line.split()[:2] for line in lines[1:3]], [["w1", "4"], ["w2", "3"]])
        rows = self.shares("--budget", "1.5", "--most", "2")
        total = sum(int(row[1]) for row in rows.values())
        self.assertLessEqual(sum(int(row[2]) for row in rows.values()), 3 * total // 2)
        self.assertRegex(lines[3], rf"^6 questions; \d+ postings of at most {3 * total // 2}; \d+ read in place of \d+$")
        for word, (_, full, share, factor, _, without) in rows.items():
            self.assertGreaterEqual(Fraction(factor) * int(full), int(share))
            self.assertLess((Fraction(factor) - Fraction(1, 100)) * int(full), int(share))
            self.assertEqual(int(without), 3 * self.size(word))

    def size(self, word: str) -> int:
        """The size of the word's list up to the last time."""
        with self.open() as collection:
            return tradeoff.gather(collection, word).whole

    @needs("shares", "queries")
    def test_a_choice_is_best(self) -> None:
        """Beside each pair of guarantees that has room, by what the questions then read."""
        reads = {word: int(row[4]) for word, row in self.shares("--budget", "2", "--words", "w1", "w2").items()}
        times = {"w1": [90_000_000, *[1_004 * DAY] * 2], "w2": [1_004 * DAY, 1_012 * DAY, 1_013 * DAY]}
        sizes = {word: self.size(word) for word in times}
        plans = {word: [(plan.space, sum(self.planned(plan, it) for it in times[word])) for plan in self.proposed(word)] for word in times}
        costs = [one[1] + two[1] for one in plans["w1"] for two in plans["w2"] if one[0] + two[0] <= 2 * sum(sizes.values())]
        self.assertTrue(costs)
        self.assertLessEqual(sum(reads.values()), min(costs))

    def proposed(self, word: str) -> list[Pieces]:
        with self.open() as collection:
            replies = [collection.ask_all(commands.propose(word, over, 4))[0] for over in range(4, 17)]
        return [plan for plan in replies if isinstance(plan, Pieces)]

    def planned(self, plan: Pieces, time: int) -> int:
        return sum(it.size for it in plan.segments if it.start <= time < it.end)

    @needs("shares", "queries")
    def test_what_is_left_out(self) -> None:
        done = self.tt("share", self.log, "--words", "heron", "w1", "a-b")
        self.assertEqual(
            done.stderr.splitlines()[:2], ["tt: heron is left out: no text has the word", "tt: a-b is left out: that isn't one word"]
        )
        self.assertEqual(len(done.stdout.splitlines()), 3)
        self.assertIn("none of these words can be planned", self.tt("share", self.log, "--words", "heron", status=1).stderr)
        self.assertIn("is too much: a budget is at most 16 times", self.tt("share", self.log, "--budget", "17", status=1).stderr)
        self.assertIn("'1/2' is no factor", self.tt("share", self.log, "--budget", "1/2", status=1).stderr)
        self.assertIn("from 1 to 16 words share a budget", self.tt("share", self.log, "--most", "17", status=1).stderr)
        self.log.write_text("show 1 2\n")
        self.assertIn("has no question that is answered", self.tt("share", self.log, status=1).stderr)
        self.assertIn("No such file", self.tt("share", self.folder / "none", status=1).stderr)

    @needs("shares", "queries", "propose")
    def test_tradeoff(self) -> None:
        with self.open() as collection:
            found = tradeoff.gather(collection, "w2", questions.ask(collection, self.log))
        self.assertEqual(found.asked, 3)
        self.assertEqual([plan.factor for plan in found.bounded], list(tradeoff.FACTORS))
        means = [plan.mean for plan in found.bounded]
        self.assertEqual(means, sorted(means, reverse=True))
        for plan in found.bounded:
            self.assertLessEqual(plan.space, plan.factor * found.whole)
            for least in found.points:
                if least.space <= plan.factor * found.whole:
                    self.assertLessEqual(plan.mean, least.mean)
        self.tt("plan", "w2", "guarantee", "5/4")
        times = [1_004 * DAY, 1_012 * DAY, 1_013 * DAY]
        self.assertAlmostEqual(found.points[2].mean, sum(self.read(time, "w2") for time in times) / 3)
        picture = self.folder / "picture.svg"
        self.tt("tradeoff", "w2", "--log", self.log, "-o", picture)
        tips = [element.text for element in ElementTree.parse(picture).getroot().iter("{http://www.w3.org/2000/svg}title")]
        self.assertTrue(any(tip and re.fullmatch(r"1: \d+ postings, \d+\.\d read", tip) for tip in tips), tips)
        self.assertIn("asks for 'w9' before 1972-11-25", self.tt("tradeoff", "w9", "--log", self.log, "-o", picture, status=1).stderr)

    @needs("shares", "queries")
    def test_shards(self) -> None:
        whole = self.shares("--budget", "2", "--words", "w1", "w2")
        self.tt("shard", "3", self.folder / "split")
        one, self.archive = self.archive, self.folder / "split"
        split = self.shares("--budget", "2", "--words", "w1", "w2")
        for word in whole:
            self.assertEqual(split[word][0], whole[word][0])
            self.assertLessEqual(int(split[word][1]), int(whole[word][1]))  # each shard has its own last time
        self.archive = one
        self.assertEqual(self.shares("--budget", "2", "--words", "w1", "w2"), whole)

    @unittest.skipUnless(FAKE, "only the stand-in can leave commands out")
    def test_a_program_that_does_not_share(self) -> None:
        for words in (("share", self.log), ("tradeoff", "w2", "--log", self.log)):
            done = self.tt(*words, status=1, FAKE_WITHOUT="share")
            self.assertEqual(done.stderr, "tt: this tt_archive doesn't answer `share` yet\n")


if __name__ == "__main__":
    unittest.main()
