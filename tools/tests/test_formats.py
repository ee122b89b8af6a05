"""Batches in the stand-in and in the model: worked rows of docs/formats.md, and each fault of a batch's bytes at its place."""

from __future__ import annotations

import re
import subprocess
import sys
import unittest
from pathlib import Path
from tempfile import TemporaryDirectory

from attacks.damage import ONE_SCRIPT, batch_journals
from model import Archive, Choice, NotArchive, Outcome, spell_journal

TESTS = Path(__file__).resolve().parent
STAND_IN = [sys.executable, "-S", "-E", TESTS / "fake_tt_archive"]
FORMATS, MANUAL = (TESTS.parents[1] / "docs" / name for name in ("formats.md", "manual.md"))
#: The model goes over each letter, so of long texts only the program and the stand-in are asked.
MOST_BYTES = 100_000
BATCH = b"format 2\nbatch 2\narrive 7 20 4\nblue\narrive 8 20 3\nred\nfind 20 red\n"
ARRIVE_9 = b"arrive 9 30 1\nx\n"
#: Scripts behind `ONE_SCRIPT`, one after another on one archive, with their replies and the status.
ROWS = [
    (b"batch 1\ndelete 7 20\n", b"no 18 OldFormat\n", 0),
    (BATCH, b"ok 2\nok 3\nhit 8 1\nend 1 read 2\n", 0),
    (
        b"format 2\nbatch 2\n" + ARRIVE_9 + b"delete 5 30\nbatch 2\n" + ARRIVE_9 + b"find 30 x\nfind 30 x\n",
        b"no 19 HasFormat\nno 4 NoDocument in 2\nno 16 BatchLine 2\nend 0 read 0\n",
        0,
    ),
    (b"batch 0001\n\n# skipped\n  \nbatch 3\nbatch 2\ndelete 7 10\n" + ARRIVE_9, b"no 16 BatchLine 1\nno 2 TimeBack 20 in 1\n", 0),
    (b"batch 2\n" + 2 * ARRIVE_9 + b"batch 1\narrive 9 30 1\n\xff\nbatch 0\n", b"no 3 SameTime in 2\nno 6 BadText 0 in 1\nno 1 Line\n", 0),
    (b"batch 3\n" + ARRIVE_9 + b"delete 9 31\nverify\nbatch 1001\nbatch\n", b"no 16 BatchLine 3\nno 1 Line\nno 1 Line\n", 0),
    (b"batch 2\n" + ARRIVE_9 + b"delete 9 31", b"ok 4\n", 0),
    (b"verify\nbatch 2\ndelete 7 40\n", b"sound 0 0\n", 7),
    (b"batch 2\ndelete 7 40\narrive 8 x 3\nred\n", b"", 7),
    (b"batch 1\narrive 8 40 3\nre", b"", 7),
    (b"batch 1\narrive 8 40 3\nredx\n", b"", 7),
]
#: Where the broken ones are.
PLACES = [27, 20, 24, 25]


class Batches(unittest.TestCase):
    def setUp(self) -> None:
        held = TemporaryDirectory()
        self.addCleanup(held.cleanup)
        self.folder = Path(held.name)
        self.journal = self.folder / "archive.journal"

    def stand_in(self, script: bytes) -> Outcome:
        ended = subprocess.run(STAND_IN, cwd=self.folder, input=script, capture_output=True)
        return Outcome(ended.stdout, ended.stderr.decode(), ended.returncode)

    def test_worked_rows(self) -> None:
        archive, places = Archive(), iter(PLACES)
        for script, replies, status in [(ONE_SCRIPT, b"ok 1\n", 0), *ROWS]:
            line = f"tt_archive: script fault at byte {next(places)}\n" if status else ""
            wanted = Outcome(replies, line, status)
            self.assertEqual(archive.run(script, Choice([], wanted.shown)), wanted, script)
            self.assertEqual(self.stand_in(script), wanted, script)
            self.assertEqual(self.journal.read_bytes(), spell_journal(archive.entries))

    def test_the_example_of_the_manual(self) -> None:
        told = MANUAL.read_text().split("**`batch N`**")[1]
        script = told.split("```\n")[1].encode()
        replies = re.search("replies are ([^:]*):", told)[1]
        wanted = "".join(reply + "\n" for reply in re.findall("`([^`]*)`", replies)).encode()
        self.assertEqual(self.stand_in(script), Outcome(wanted, "", 0))
        self.assertEqual(Archive().run(script, Choice([], wanted)), Outcome(wanted, "", 0))

    def test_the_bytes_that_the_formats_have(self) -> None:
        self.stand_in(ONE_SCRIPT + BATCH)
        held = self.journal.read_bytes()
        section = FORMATS.read_text().split("\n## Entries\n")[1].split("\n## ")[0]
        [block] = re.findall(r"^```\n(.*?)^```$", section, re.MULTILINE | re.DOTALL)
        at = 39
        for place, digits in re.findall(r"^ *(\d+)  ([0-9a-f ]+?)(?:  .*)?$", block, re.MULTILINE):
            self.assertEqual(int(place), at)
            at += len(bytes.fromhex(digits))
            self.assertEqual(held[int(place) : at].hex(), bytes.fromhex(digits).hex(), place)
        self.assertEqual((at, len(held)), (99, 99))

    def test_each_fault_at_its_place(self) -> None:
        self.stand_in(ONE_SCRIPT)
        table = batch_journals(self.journal.read_bytes())
        self.assertGreater(len(table), 20)
        for what, journal, place in table:
            if len(journal) > MOST_BYTES:
                continue
            with self.subTest(what):
                self.journal.write_bytes(journal)
                line = "" if place is None else f"tt_archive: not an archive at byte {place} of the journal\n"
                self.assertEqual(self.stand_in(b""), Outcome(b"", line, 3 if line else 0))
                self.assertEqual(self.journal.read_bytes(), journal)
                try:
                    Archive.loaded(journal, 0)
                    found = None
                except NotArchive as fault:
                    found = int(str(fault))
                self.assertEqual(found, place)


if __name__ == "__main__":
    unittest.main()
