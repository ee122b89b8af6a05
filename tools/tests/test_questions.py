"""Questions by names and dates, and pictures, beside the texts that were put in."""

from __future__ import annotations

import os
import unittest
import xml.etree.ElementTree as ElementTree
from fractions import Fraction

from support import DAY, ArchiveCase, Version, needs, sample
from tt_archive_tools import commands, timeline, tradeoff
from tt_archive_tools.errors import ToolError

#: 2007-07-23
START = 13_717 * DAY
BRIDGE = [
    Version(START, "bridge", "The bridge is open."),
    Version(START, "ferry", "The ferry goes."),
    Version(START + DAY, "bridge", "The bridge is closed. No bridge today."),
    Version(START + 2 * DAY, "ferry", "The ferry is closed: take the bridge."),
    Version(START + 3 * DAY, "bridge", None),
]
#: What is no plan, and what is said behind it.
PLANS = {
    "3/2": "; did you mean `guarantee 3/2`?",
    "guarante 3:2": "; did you mean `guarantee 3/2`?",
    "1.5 guarantee": "; did you mean `guarantee 1.5`?",
    "space 3/2": "; did you mean `space 3/2 uniform` or `space 3/2 since TIME`?",
    "space 3 / 2 unifrom": "; did you mean `space 3/2 uniform`?",
    "guarantee 2 uniform": "; did you mean `space 2 uniform`?",
    "space since 2007-07 3/2": "; did you mean `space 3/2 since 2007-07`?",
    "space 3/2 2007-07": "; did you mean `space 3/2 since 2007-07`?",
    "guarantee": "",
}
FAKE = "fake_tt_archive" in os.environ.get("TT_ARCHIVE", "")


class Questions(ArchiveCase):
    def setUp(self) -> None:
        super().setUp()
        self.fill(BRIDGE)

    def test_find(self) -> None:
        done = self.tt("find", "bridge", "--at", "2007-07-25")
        self.assertEqual(
            done.stdout,
            "score  document\n2      bridge\n1      ferry\n2 documents at 2007-07-25; 3 postings read\n",
        )
        self.assertEqual(self.tt("find", "bridge", "--at", "2007-07-24", "--tsv").stdout, "2\tbridge\n")
        self.assertEqual(self.tt("find", "bridge").stdout.splitlines()[1], "1      ferry")
        self.assertEqual(self.tt("find", "heron").stdout, "0 documents now; 0 postings read\n")

    @needs("queries", "utf8")
    def test_queries(self) -> None:
        self.assertEqual(self.tt("find", "closed and not ferry", "--at", "2007-07-25", "--tsv").stdout, "1\tbridge\n")
        self.fill([Version(START + 4 * DAY, "gruß", "Grüße an die Brücke")])
        self.assertEqual(self.tt("find", "GRÜSSE brücke", "--tsv").stdout, "2\tgruß\n")

    @needs("between")
    def test_between(self) -> None:
        done = self.tt("between", "bridge", "--from", "2007-07-23", "--to", "2007-07-26")
        self.assertEqual(
            done.stdout,
            "from        to          score  document\n"
            "2007-07-23  2007-07-24  1      bridge\n"
            "2007-07-24  2007-07-26  2      bridge\n"
            "2007-07-25  2007-07-26  1      ferry\n"
            "3 spans from 2007-07-23 to 2007-07-26; 3 postings read\n",
        )
        self.assertIn("isn't before the second", self.tt("between", "bridge", "--from", "2008", "--to", "2007", status=1).stderr)

    def test_show(self) -> None:
        self.assertEqual(self.tt("show", "bridge", "--at", "2007-07-24").stdout, "The bridge is closed. No bridge today.\n")
        self.assertEqual(self.tt("show", "#2").stdout, "The ferry is closed: take the bridge.\n")
        self.assertIn("bridge has no text at 2007-07-26", self.tt("show", "bridge", "--at", "2007-07-26", status=1).stderr)
        self.assertIn("no document is named 'brigde'; near it: bridge", self.tt("show", "brigde", status=1).stderr)

    def test_status(self) -> None:
        self.assertEqual(
            self.tt("status").stdout.splitlines()[:3],
            [
                "documents  2, of which 1 have a text now; 2 names",
                "entries    4 versions, 1 deletion, 0 plans",
                "times      2007-07-23 to 2007-07-26",
            ],
        )

    def test_wrong_words(self) -> None:
        self.assertIn("there are no words to find", self.tt("find", " ", status=1).stderr)
        self.assertIn("a question is one line", self.tt("find", "a\nb", status=1).stderr)
        self.assertIn("is no time", self.tt("find", "a", "--at", "yesterday", status=1).stderr)
        self.assertIn("a plan is", self.tt("plan", "a", "guarantee", "2", "uniform", status=1).stderr)
        for form, meant in PLANS.items():
            said = self.tt("plan", "a", *form.split(), status=1).stderr
            self.assertEqual(said, "tt: a plan is `guarantee A/B`, `space A/B uniform` or `space A/B since TIME`" + meant + "\n", form)
        for factor in ("0.5", "2/0", "2/3", "4294967296"):
            self.assertIn(f"'{factor}' is no factor", self.tt("plan", "a", "guarantee", factor, status=1).stderr)

    @unittest.skipUnless(FAKE, "only the stand-in can leave commands out")
    def test_what_a_program_does_not_answer_yet(self) -> None:
        without = {"FAKE_WITHOUT": "between plan propose certificate"}
        for words in (("between", "bridge"), ("plan", "bridge", "guarantee", "2/1"), ("tradeoff", "bridge")):
            done = self.tt(*words, status=1, **without)
            command = "propose" if words[0] == "tradeoff" else words[0]
            self.assertEqual(done.stderr, f"tt: this tt_archive doesn't answer `{command}` yet\n")
        picture = self.folder / "picture.svg"
        done = self.tt("timeline", "bridge", "-o", picture, **without)
        self.assertIn("doesn't answer `between` yet: the picture shows 121 times", done.stderr)
        ElementTree.parse(picture)
        older = {"FAKE_BREAKS": "between plan propose certificate"}
        self.assertEqual(self.tt("between", "bridge", status=1, **older).stderr, "tt: this tt_archive doesn't answer `between` yet\n")
        self.assertIn("the picture shows 121 times", self.tt("timeline", "bridge", "-o", picture, **older).stderr)


class Pictures(ArchiveCase):
    def setUp(self) -> None:
        super().setUp()
        self.versions = sample(seed=7, documents=12, count=120)
        self.fill(self.versions)

    def counts(self, word: str, time: int) -> dict[str, int]:
        """By scanning: how often the word stands in each document at a time."""
        texts: dict[str, str] = {}
        for version in self.versions:
            if version.time <= time:
                texts[version.name] = version.text or ""
        return {name: text.split().count(word) for name, text in texts.items() if word in text.split()}

    def assert_costs(self, line: timeline.Timeline, times: list[int]) -> None:
        """What is drawn is what a question of that time reads."""
        with self.open() as collection:
            for time in (*times, *(move.time for move in line.moves)):
                drawn = [cost for start, cost in line.costs if start <= time][-1]
                self.assertEqual(drawn, collection.ask_rows(commands.find(time, line.word)).read, time)

    @needs("between", "sublists")
    def test_timeline(self) -> None:
        middle = self.versions[60].time
        with self.open() as collection:
            before = timeline.gather(collection, "w2")
        self.assertEqual({cost for _, cost in before.costs}, {before.whole})
        self.assertEqual(before.horizons, ())
        self.tt("plan", "w2", "guarantee", "3/2")
        with self.open() as collection:
            line = timeline.gather(collection, "w2")
            numbers = {name: number for number, name in collection.names.items()}
        last = self.versions[-1].time
        self.assertEqual(line.horizons, (last,))
        for time, count in line.counts:
            self.assertEqual(count, len(self.counts("w2", time)), time)
            self.assertNotEqual(self.counts("w2", time), self.counts("w2", time - 1))
        for move in line.moves:
            name = next(name for name, number in numbers.items() if number == move.doc)
            self.assertEqual(move.before, self.counts("w2", move.time - 1).get(name, 0))
            self.assertEqual(move.after, self.counts("w2", move.time).get(name, 0))
        changed = {time for time in (v.time for v in self.versions) if self.counts("w2", time) != self.counts("w2", time - 1)}
        self.assertEqual({move.time for move in line.moves}, changed)
        for time, cost in line.costs:
            if line.first <= time < last:
                alive = len(self.counts("w2", time))
                self.assertLessEqual(2 * cost, 3 * max(alive, 0) if alive else 0, time)
        self.assertLess(line.costs[len(line.costs) // 2][1], line.whole)
        self.assert_costs(line, [last - 1, last, last + DAY])
        self.assertGreater(len(self.counts("w2", middle)), 0)

    @needs("between")
    def test_timeline_is_drawn(self) -> None:
        self.fill([Version(self.versions[-1].time + DAY, "odd <name>\x1b\udce9", "w2")])
        picture, page = self.folder / "picture.svg", self.folder / "page.html"
        done = self.tt("timeline", "w2".upper(), "-o", picture, "--html", page)
        self.assertEqual(done.stdout, f"{picture}\n{page}\n")
        root = ElementTree.parse(picture).getroot()
        self.assertEqual(root.tag, "{http://www.w3.org/2000/svg}svg")
        tips = [element.text for element in root.iter("{http://www.w3.org/2000/svg}title")]
        self.assertGreater(sum(len(tip.splitlines()) for tip in tips), 30)
        self.assertIn("<td>odd &lt;name&gt;\\x1b\\xe9</td>", page.read_text())
        self.assertIn("no document ever had the word 'heron'", self.tt("timeline", "heron", status=1).stderr)

    @needs("propose")
    def test_tradeoff(self) -> None:
        with self.open() as collection:
            found = tradeoff.gather(collection, "w2")
            self.assertRaises(ToolError, tradeoff.gather, collection, "heron")
        self.assertEqual([point.factor for point in found.points], [Fraction(k, 8) for k in range(8, 33)])
        spaces = [point.space for point in found.points]
        self.assertEqual(spaces, sorted(spaces, reverse=True))
        self.assertGreaterEqual(spaces[-1], found.whole)
        last = self.versions[-1].time
        times = range(found.horizon - (last - self.versions[0].time), last, DAY // 2)
        first = next(time for time in times if self.counts("w2", time))
        alive = [len(self.counts("w2", time)) for time in times if time >= first]
        self.assertAlmostEqual(found.points[0].mean, sum(alive) / len(alive))
        for point in found.points:
            self.assertLessEqual(point.mean, float(point.factor) * found.points[0].mean + 1e-9)
        picture = self.folder / "picture.svg"
        self.tt("tradeoff", "w2", "-o", picture)
        ElementTree.parse(picture)

    @needs("plans")
    def test_plans(self) -> None:
        done = self.tt("plan", "w2", "guarantee", "3/2")
        self.assertRegex(done.stdout, r"^\d+ segments of \d+ postings in all; the list has \d+ before 1972-11-25T12:00:00Z\n$")
        with self.open() as collection:
            self.assertEqual(timeline.gather(collection, "w2").horizons, (self.versions[-1].time,))
        self.assertIn("no plan of 'heron': no text has the word", self.tt("plan", "heron", "guarantee", "2/1", status=1).stderr)
        self.assertEqual(self.tt("plan", "w2", "guarantee", "1.5").stdout, done.stdout)
        self.tt("plan", "w3", "guarantee", "2")
        told = self.tt("status").stdout.splitlines()
        self.assertRegex(told[1], r"^entries    \d+ versions, \d+ deletions, 3 plans$")
        self.assertRegex(told[5], r"^plan       w2 guarantee 3/2: \d+ segments, until 1972-11-25T12:00:00Z$")
        self.assertRegex(told[6], r"^plan       w3 guarantee 2/1: ")

    def test_what_is_stored_is_checked(self) -> None:
        self.assertEqual(self.tt("verify").stdout, "sound: 0 words with a plan, 0 segments\n")
        self.tt("plan", "w2", "guarantee", "3/2")
        self.assertRegex(self.tt("verify").stdout, r"^sound: 1 word with a plan, \d+ segments\n$")

    @unittest.skipIf(FAKE, "the stand-in keeps no sublists in Pages")
    @needs("sublists")
    def test_what_differs_is_told(self) -> None:
        self.tt("plan", "w2", "guarantee", "3/2")
        pages = self.archive / "archive.pages"
        kept = pages.read_bytes()
        pages.write_bytes(bytes([kept[0] ^ 1]) + kept[1:])
        self.assertRegex(
            self.tt("verify", status=1).stderr,
            r"^tt: the plan of w2 isn't as it should be: byte 0 of its segment \d+ is [0-9a-f]{2}, and [0-9a-f]{2} is wanted "
            r"\(-- where it has none\); no version is lost, and `tt plan` stores it anew\n$",
        )
        self.tt("plan", "w2", "guarantee", "3/2")
        self.assertIn("sound: 1 word with a plan", self.tt("verify").stdout)

    @unittest.skipIf(FAKE, "the stand-in keeps no sublists in Pages")
    @needs("sublists")
    def test_damage_is_told_and_mended(self) -> None:
        whole = self.tt("find", "w2", "--at", "1972-10-20").stdout
        self.tt("plan", "w2", "guarantee", "3/2")
        pages = self.archive / "archive.pages"
        kept = pages.read_bytes()
        pages.write_bytes(bytes(byte ^ 1 if at % 4_096 == 3 else byte for at, byte in enumerate(kept)))
        for words in (("find", "w2", "--at", "1972-10-20"), ("timeline", "w2", "-o", self.folder / "picture.svg")):
            self.assertRegex(
                self.tt(*words, status=1).stderr,
                r"damaged sublist at page \d+ of archive.pages, of the plan of w2: its bytes aren't those that were stored "
                r"\(digest\); no version is lost, and `tt plan w2 guarantee 3/2` stores its sublists anew\n$",
            )
        self.tt("plan", "w2", "guarantee", "3/2")
        self.assertEqual(self.tt("find", "w2", "--at", "1972-10-20").stdout.splitlines()[:-1], whole.splitlines()[:-1])
        pages.unlink()
        told = self.tt("find", "w2", status=1).stderr
        self.assertIn("archive.pages is shorter than the plans that stand reach", told)
        os.truncate(pages, int(told.partition("truncate -s ")[2].split()[0]))
        self.tt("plan", "w2", "guarantee", "3/2")
        self.assertEqual(self.tt("find", "w2", "--at", "1972-10-20").stdout.splitlines()[:-1], whole.splitlines()[:-1])

    def test_a_journal_that_is_gone(self) -> None:
        (self.archive / "archive.journal").unlink()
        self.assertIn("archive.journal is gone, and", self.tt("find", "w1", status=1).stderr)
        self.assertFalse((self.archive / "archive.journal").exists())

    @needs("space")
    def test_space_plans(self) -> None:
        done = self.tt("plan", "w2", "space", "3/2", "since", "1972-10-01")
        self.assertRegex(done.stdout, r"^\d+ segments of \d+ postings in all; the list has \d+ before 1972-11-25T12:00:00Z, expected cost \d+\n$")
        with self.open() as collection:
            line = timeline.gather(collection, "w2")
        self.assertEqual(line.horizons, (self.versions[-1].time,))
        self.assert_costs(line, [self.versions[-1].time + DAY])
        self.assertIn("plan       w2 space 3/2 since 86745600: ", self.tt("status").stdout)
        self.assertIn("no plan of 'heron': no text has the word", self.tt("plan", "heron", "space", "2/1", "uniform", status=1).stderr)

    def test_a_program_that_ends(self) -> None:
        done = self.tt("find", "w1", status=1, TT_ARCHIVE="sh -c 'echo tt_archive: disk fault >&2; exit 4'")
        self.assertEqual(done.stderr, f"tt: {self.archive}: tt_archive: disk fault\n")
        for how in ("kill -9 $$", "sh -c \"kill -9 \\$\\$\"; exit $?"):
            done = self.tt("find", "w1", status=1, TT_ARCHIVE=f"sh -c '{how}'")
            self.assertEqual(
                done.stderr,
                f"tt: {self.archive}: tt_archive was killed (signal 9, SIGKILL), as the system does where memory is short; "
                "what was acknowledged is in the archive, and the same command goes on from there\n",
            )
        done = self.tt("find", "w1", status=1, TT_ARCHIVE="sh -c 'exit 5'")
        self.assertEqual(done.stderr, f"tt: {self.archive}: tt_archive ended with status 5\n")
        done = self.tt("find", "w1", status=1, TT_ARCHIVE="sh -c 'read line; echo what'")
        self.assertIn("tt_archive answered what is no reply: b'what\\n'", done.stderr)
        self.assertIn("there is no program /none", self.tt("find", "w1", status=1, TT_ARCHIVE="/none").stderr)


