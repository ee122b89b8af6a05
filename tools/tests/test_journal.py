"""Reading a journal by its bytes: entries of each kind, the mark and batches among them."""

from __future__ import annotations

import unittest
from pathlib import Path
from tempfile import TemporaryDirectory

from support import TESTS  # noqa: F401 (it puts the tools on the path)
from tt_archive_tools.copying import JournalFile
from tt_archive_tools.journal import entries, heads, history, summary, text_of
from tt_archive_tools.program import Shard

ARRIVAL = bytes.fromhex("a5 00000012 01 00000007 000000000000000a") + b"red a"
MARK = bytes.fromhex("a5 00000003 05 0002")
DELETION = bytes.fromhex("a5 0000000d 02 00000007 0000000000000014")
BATCH = bytes.fromhex(
    "a5 0000002e 04 00000002 00000011 01 00000007 0000000000000014 626c7565 00000010 01 00000008 0000000000000014 726564"
)
HEADER = b"TIMETRAVELTEXT\x00\x01"


class JournalTest(unittest.TestCase):
    def setUp(self) -> None:
        held = TemporaryDirectory()
        self.addCleanup(held.cleanup)
        self.folder = Path(held.name)

    def holds(self, *records: bytes) -> None:
        (self.folder / "archive.journal").write_bytes(HEADER + b"".join(records) + b"\0")

    def test_the_mark_is_an_entry_and_no_change(self) -> None:
        self.holds(ARRIVAL, MARK, DELETION)
        found = list(entries(self.folder, texts=True))
        told = [(entry.doc, entry.time, entry.text, entry.changes) for entry in found]
        self.assertEqual(told, [(7, 10, b"red a", True), (0, 0, b"", False), (7, 20, b"", True)])
        self.assertEqual([entry.after for entry in found], [39, 47, 65])
        self.assertEqual(list(heads(self.folder)), [(7, 10, True), (7, 20, False)])
        self.assertEqual([entry.time for entry in history(self.folder, 7)], [10, 20])
        self.assertEqual(history(self.folder, 0), [])

    def test_the_mark_may_come_last_or_first(self) -> None:
        for records in ((ARRIVAL, MARK), (MARK, ARRIVAL)):
            self.holds(*records)
            self.assertEqual(list(heads(self.folder)), [(7, 10, True)])

    def test_the_mark_counts_for_nothing_in_a_summary(self) -> None:
        self.holds(MARK, ARRIVAL, DELETION)
        told = summary([Shard(self.folder)])
        self.assertEqual((told.arrivals, told.deletions, told.documents, told.alive, told.first, told.last), (1, 1, 1, 0, 10, 20))

    def test_a_batch_is_its_changes(self) -> None:
        self.holds(ARRIVAL, MARK, BATCH, DELETION.replace(b"\x14", b"\x15"))
        for texts in (True, False):
            found = [entry for entry in entries(self.folder, texts) if entry.changes]
            self.assertEqual([(entry.doc, entry.time, entry.arrives) for entry in found], [(7, 10, True), (7, 20, True), (8, 20, True), (7, 21, False)])
            self.assertEqual([entry.text for entry in found], [b"red a", b"blue", b"red", b""] if texts else [b""] * 4)
            self.assertEqual([text_of(self.folder, entry) for entry in found], [b"red a", b"blue", b"red", b""])
        self.assertEqual(list(heads(self.folder)), [(7, 10, True), (7, 20, True), (8, 20, True), (7, 21, False)])
        self.assertEqual([entry.time for entry in history(self.folder, 7)], [10, 20, 21])
        told = summary([Shard(self.folder)])
        self.assertEqual((told.arrivals, told.deletions, told.documents, told.alive, told.first, told.last), (3, 1, 2, 1, 10, 21))

    def test_a_copy_is_sent_a_batch_as_one_command(self) -> None:
        self.holds(ARRIVAL, MARK, BATCH)
        journal = JournalFile(Shard(self.folder))
        batch = b"batch 2\narrive 7 20 4\nblue\narrive 8 20 3\nred\n"
        self.assertEqual([(piece.script, piece.count, piece.gate) for piece in journal.pieces(47)], [(batch, 1, 98)])
        self.assertEqual(journal.extent(), (3, 98))

    def test_a_copy_is_sent_the_mark(self) -> None:
        self.holds(ARRIVAL, MARK, DELETION)
        pieces = list(JournalFile(Shard(self.folder)).pieces(16))
        self.assertEqual([(piece.script, piece.count) for piece in pieces], [(b"arrive 7 10 5\nred a\nformat 2\ndelete 7 20\n", 3)])


if __name__ == "__main__":
    unittest.main()
