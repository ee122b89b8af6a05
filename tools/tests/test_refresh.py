"""All sources of an archive imported again, in one order of time, beside what each of them says."""

from __future__ import annotations

import os
import shlex
import shutil
import subprocess
import sys
import unittest
from pathlib import Path

from support import TOOLS, ArchiveCase, find_program
from test_git import DAY, START, Repository, as_texts
from test_mediawiki import DUMP, at, page, revision
from tt_archive_tools.ledger import Ledger
from tt_archive_tools.times import show_time


class Refresh(ArchiveCase):
    def setUp(self) -> None:
        super().setUp()
        self.repository = Repository(self.folder / "laws of a town")
        self.repository.commit(START, a_txt=b"a first\n", b_txt=b"b first\n", c_txt=b"c")
        self.snapshot(START + DAY, x="x first")

    def snapshot(self, time: int, **files: str) -> None:
        for name, text in files.items():
            file = self.folder / "-snapshots" / show_time(time) / f"{name}.txt"
            file.parent.mkdir(parents=True, exist_ok=True)
            file.write_text(text)

    def import_both(self) -> None:
        """By relative paths, with options that have to be kept."""
        run = [sys.executable, TOOLS / "tt", "-C", self.archive, "import"]
        for words in (["git", self.repository.path.name, "--only", "a.txt", "c.txt"], ["folder", "./-snapshots", "--prefix=-s/"]):
            subprocess.run([*run, *words], cwd=self.folder, check=True, capture_output=True)

    def add(self, first: int, count: int) -> None:
        """Changes of both sources by turns, some of them in one second."""
        for index in range(first, first + count):
            time = START + (2 + index) * DAY
            self.repository.commit(time, a_txt=b"a of %d\n" % index, b_txt=b"not taken %d\n" % index, c_txt=b"c" if index % 3 else None)
            self.snapshot(time + index % 2 * DAY // 2, x=f"x of {index}", **({"y": "y"} if index % 3 == 1 else {}))

    def assert_as_both_say(self, last: int) -> None:
        times = [START + DAY + index * DAY // 2 for index in range(2 * last + 2)]
        for time, texts in zip(times, self.texts_at(*times)):
            tree = as_texts(self.repository.tree_at(time))
            wanted = {name: text for name, text in tree.items() if name in ("a.txt", "c.txt")}
            folder = max(each for each in (self.folder / "-snapshots").iterdir() if each.name <= show_time(time) or each.name == show_time(time))
            wanted |= {f"-s/{file.name}": file.read_text() for file in folder.iterdir()}
            self.assertEqual(texts, wanted, show_time(time))

    def test_all_in_one_order_of_time(self) -> None:
        self.import_both()
        self.add(0, 7)
        done = self.tt("refresh")
        git, folder = f"git {self.repository.path} HEAD a.txt c.txt", f"folder {self.folder}/-snapshots -s/"
        self.assertRegex(
            done.stdout,
            f"^{git}: 9 versions and 3 deletions are in the archive\n{folder}: 9 versions and 2 deletions are in the archive\n$",
        )
        self.assertEqual(done.stderr, "")
        self.assert_as_both_say(8)
        self.assertEqual(self.tt("refresh").stdout, f"{git}: 0 versions and 0 deletions are in the archive\n{folder}: 0 versions and 0 deletions are in the archive\n")
        self.assertEqual(self.tt("-q", "refresh").stdout, "")
        told = self.tt("status").stdout
        self.assertIn(f"imported   {git}, until ", told)
        self.assertIn(f"imported   {folder}, until ", told)
        # An import of one of them goes on as before.
        self.add(7, 2)
        self.assertIn("imported before, until ", self.tt("import", "git", self.repository.path, "--only", "a.txt", "c.txt").stdout)

    def test_a_stop_loses_nothing(self) -> None:
        self.import_both()
        self.add(0, 12)
        kept = self.folder / "kept"
        shutil.copytree(self.archive, kept)
        for size in (1, 200, 333, 500, 711, 900):
            with self.subTest(size):
                shutil.rmtree(self.archive)
                shutil.copytree(kept, self.archive)
                stopping = f"sh -c 'dd bs=1 count={size} status=none | {shlex.join(find_program(None))}'"
                self.tt("refresh", status=1, TT_ARCHIVE=stopping)
                self.assertIn("\nwith\t", (self.archive / "imports.tsv").read_text() if size > 1 else "\nwith\t")
                done = self.tt("refresh")
                self.assertEqual((done.stderr, "refused" in done.stdout), ("", False), done.stdout)
                self.assert_as_both_say(13)

    def test_what_is_refused_is_told_once(self) -> None:
        self.import_both()
        self.add(0, 3)
        self.tt("import", "folder", self.folder / "-snapshots", "--prefix=-s/")
        done = self.tt("-q", "refresh", status=1)
        self.assertRegex(done.stdout, "^git .*: 1 version and 0 deletions are in the archive, refused, TimeBack: [45]\n$")
        self.assertIn(":a.txt): refused: TimeBack", done.stderr)
        self.assertRegex(done.stderr, "\ntt: [45] changes refused\n$")
        self.assertEqual(self.tt("-q", "refresh").stdout, "")

    def test_a_source_that_cannot_be_read(self) -> None:
        self.import_both()
        self.add(0, 3)
        (self.folder / "-snapshots").rename(self.folder / "elsewhere")
        journal = (self.archive / "archive.journal").read_bytes()
        done = self.tt("refresh", status=1)
        self.assertIn(f"tt: folder {self.folder}/-snapshots -s/: {self.folder}/-snapshots: No such file or directory\n", done.stderr)
        self.assertIn("tt: nothing was sent, since what is new in a source that can't be read would be too late afterwards; `tt refresh --go-on`", done.stderr)
        self.assertEqual((self.archive / "archive.journal").read_bytes(), journal)
        (self.folder / "elsewhere").rename(self.folder / "-snapshots")
        self.tt("refresh")
        self.assert_as_both_say(4)
        self.add(3, 1)
        (self.folder / "-snapshots").rename(self.folder / "elsewhere")
        done = self.tt("-q", "refresh", "--go-on", status=1)
        self.assertTrue(done.stderr.endswith("\ntt: 0 changes refused; 1 source can't be read\n"), done.stderr)
        self.assertEqual(self.texts_at(START + 5 * DAY)[0]["a.txt"], "a of 3\n")

    def test_how_it_was_imported_is_noted(self) -> None:
        self.assertIn("nothing was imported here", self.tt("refresh", status=1).stderr)
        dump = self.folder / "a\tdump.xml"
        dump.write_text(DUMP)
        # By a link, which later points to something newer.
        self.archive = self.folder / "linked"
        self.tt("init", self.archive)
        link, newer = self.folder / "current.xml", self.folder / "newer.xml"
        link.symlink_to(dump)
        self.tt("import", "mediawiki", link)
        newer.write_text(DUMP.replace("</mediawiki>", page("New", revision(60, "2008-01-01T00:00:00", "new")) + "</mediawiki>"))
        link.unlink()
        link.symlink_to(newer)
        self.assertIn("1 version and 0 deletions", self.tt("refresh").stdout)
        self.assertEqual(self.texts_at(at("2008-01-01"))[0]["New"], "new")
        self.archive = self.folder / "archive"
        self.tt("import", "mediawiki", "--keep-redirects", "--charset", "latin-1", dump)
        words = Ledger(self.archive / "imports.tsv").sources()[f"mediawiki {dump}"]
        self.assertEqual(words, f"mediawiki '{dump}' --keep-redirects --charset=latin-1")
        dump.write_text(DUMP.replace("</mediawiki>", page("New", revision(60, "2008-01-01T00:00:00", "#REDIRECT [[List]]")) + "</mediawiki>"))
        self.assertIn("1 version and 0 deletions", self.tt("refresh").stdout)
        self.assertEqual(self.texts_at(at("2008-01-01"))[0]["New"], "#REDIRECT [[List]]")
        # A wrong import, of which nothing was taken, is not tried each night.
        self.tt("import", "git", self.repository.path, status=1)
        self.assertEqual(self.tt("refresh").stdout, f"mediawiki {self.folder}/a\\x09dump.xml: 0 versions and 0 deletions are in the archive\n")
        # An older table has no words.
        table = self.archive / "imports.tsv"
        rows = [row.split("\t") for row in table.read_text().splitlines()]
        table.write_text("".join("\t".join(row[:4]) + "\n" for row in rows))
        self.assertIn("it isn't noted how this was imported; `tt import` of it does so", self.tt("refresh", status=1).stderr)
        self.tt("import", "mediawiki", "--keep-redirects", dump)
        self.tt("refresh")

    def test_several_repositories_at_once(self) -> None:
        other = Repository(self.folder / "other")
        other.commit(START + 5, early_txt=b"between\n")
        self.tt("import", "git", self.repository.path, other.path)
        other.commit(START + 3 * DAY, early_txt=b"later\n")
        self.repository.commit(START + 2 * DAY, a_txt=b"a later\n")
        os.chdir(self.folder)
        self.assertIn(": 2 versions and 0 deletions are in the archive\n", self.tt("refresh").stdout)
        texts = self.texts_at(START + 3 * DAY)[0]
        self.assertEqual((texts["other/early.txt"], texts["laws of a town/a.txt"]), ("later\n", "a later\n"))


if __name__ == "__main__":
    unittest.main()
