"""Snapshots in folders with dates, and files by the time of their last change."""

from __future__ import annotations

import os
import subprocess
import sys
from datetime import datetime, timezone

from support import TOOLS, ArchiveCase, stand_in

DAY = 86_400
#: 2007-07-23
START = 13_717 * DAY

#: In place of tt_archive: takes a version where its document's number is in the table of names.
LOOKING = stand_in("'' if any(doc == row.split()[0] for row in open('names.tsv', 'rb')) else 'Unnamed'")


class FolderImport(ArchiveCase):
    def write(self, name: str, text: str, time: int | None = None) -> None:
        path = self.folder / "tree" / name
        path.parent.mkdir(parents=True, exist_ok=True)
        path.write_text(text)
        if time is not None:
            os.utime(path, (time, time))

    def test_snapshots(self) -> None:
        self.write("2007-07-23/law/one.txt", "Old law.")
        self.write("2007-07-23/two.txt", "Second.")
        self.write("20070724/law/one.txt", "Old law.")
        self.write("20070724/three.html", "<h1>Third</h1><p>page")
        self.write("2007-07-25T12:00:00Z/law/one.txt", "New law.")
        self.write("2007-07-25T12:00:00Z/.hidden", "x")
        self.write("beside.txt", "x")
        done = self.tt("import", "folder", self.folder / "tree")
        self.assertIn("4 versions and 2 deletions are in the archive", done.stdout)
        self.assertIn("versions with the text of the one before: 1", done.stdout)
        self.assertIn("beside.txt: file beside the folders with dates, left out", done.stderr)
        noon = START + 2 * DAY + DAY // 2
        self.assertEqual(
            self.texts_at(START - 1, START, START + DAY, noon - 1, noon),
            [
                {},
                {"law/one.txt": "Old law.", "two.txt": "Second."},
                {"law/one.txt": "Old law.", "three.html": "Third\npage"},
                {"law/one.txt": "Old law.", "three.html": "Third\npage"},
                {"law/one.txt": "New law."},
            ],
        )
        self.write("2007-07-26/two.txt", "Second again.")
        done = self.tt("import", "folder", self.folder / "tree")
        self.assertIn("1 version and 1 deletion are in the archive", done.stdout)
        self.assertEqual(self.texts_at(START + 3 * DAY), [{"two.txt": "Second again."}])

    def test_snapshots_named_by_year_or_month(self) -> None:
        self.write("2001-01-01/a/x.txt", "first")
        self.write("2002/a/x.txt", "second")
        self.write("2003-06/a/x.txt", "third")
        done = self.tt("import", "folder", self.folder / "tree")
        self.assertEqual(done.stderr, f"{self.folder}/tree: 3 snapshots, 2001-01-01 to 2003-06-01\n")
        times = [int(datetime(*day, tzinfo=timezone.utc).timestamp()) for day in ((2001, 1, 1), (2002, 1, 1), (2003, 6, 1))]
        texts = [{}, *({"a/x.txt": text} for text in ("first", "first", "second", "second", "third"))]
        self.assertEqual(self.texts_at(*(time + s for time in times for s in (-1, 0))), texts)

    def test_folders_of_both_kinds_are_named_and_refused(self) -> None:
        self.write("2001-01-01/a/x.txt", "first", START)
        self.write("2002-13/a/x.txt", "second", START)
        self.write("spring/a/x.txt", "third", START)
        done = self.tt("import", "folder", self.folder / "tree", status=1)
        self.assertIn("these of its folders aren't named by dates, and the others are: 2002-13, spring; name all", done.stderr)
        self.assertEqual(self.texts_at(START), [{}])
        done = self.tt("import", "folder", "--by-time", self.folder / "tree")
        self.assertEqual(done.stderr, f"{self.folder}/tree: 3 files, each at the time of its last change\n")
        self.assertEqual(len(self.texts_at(START)[0]), 3)

    def test_files_by_their_times(self) -> None:
        self.write("b/late.txt", "late", START + 9)
        self.write("early.txt", "early", START)
        self.write("before.txt", "before 1970", -5 * DAY)
        done = self.tt("import", "folder", self.folder / "tree")
        self.assertIn("versions before 1970, taken at 1970-01-01: 1", done.stdout)
        self.assertEqual(
            self.texts_at(0, START, START + 9),
            [
                {"before.txt": "before 1970"},
                {"before.txt": "before 1970", "early.txt": "early"},
                {"before.txt": "before 1970", "early.txt": "early", "b/late.txt": "late"},
            ],
        )

    def test_names_are_durable_before_versions(self) -> None:
        self.write("one.txt", "one", START)
        self.tt("import", "folder", self.folder / "tree")
        names = self.archive / "names.tsv"
        self.assertEqual(names.read_text(), "1\tone.txt\n")
        with open(names, "a") as file:
            file.write("2\ttorn by a st")
        self.write("two.txt", "two", START + 1)
        self.tt("import", "folder", self.folder / "tree")
        self.assertEqual(names.read_text(), "1\tone.txt\n2\ttwo.txt\n")
        self.assertEqual(self.texts_at(START + 1), [{"one.txt": "one", "two.txt": "two"}])

    def test_a_name_stands_before_its_first_version_is_sent(self) -> None:
        looking = self.folder / "looking"
        looking.write_text(LOOKING)
        for index in range(300):
            self.write(f"{index}.txt", f"text {index}", START + index)
        done = self.tt("import", "folder", self.folder / "tree", TT_ARCHIVE=f"{sys.executable} -S -E {looking}")
        self.assertEqual(done.stdout, "300 versions and 0 deletions are in the archive\n")

    def test_an_empty_text(self) -> None:
        self.write("empty.txt", "", START)
        self.tt("import", "folder", self.folder / "tree")
        self.assertEqual(self.texts_at(START), [{"empty.txt": ""}])

    def test_one_at_a_time(self) -> None:
        with self.open():
            self.assertIn("another tt is at work", self.tt("--wait", 0, "status", status=1).stderr)

    def test_the_command_by_itself(self) -> None:
        done = subprocess.run([TOOLS / "tt", "-C", self.archive, "find", "bridge"], capture_output=True, text=True)
        self.assertEqual((done.stdout, done.stderr, done.returncode), ("0 documents now; 0 postings read\n", "", 0))
        done = subprocess.run([TOOLS / "tt", "-C", self.folder, "status"], capture_output=True, text=True)
        self.assertEqual((done.stdout, done.returncode), ("", 1))

    def test_no_archive(self) -> None:
        done = self.tt("-C", self.folder, "status", status=1)
        self.assertIn("has no archive: `tt init", done.stderr)
