"""An import that can't be undone: tried first, warned of, and told where nothing of it was taken."""

from __future__ import annotations

import os
from pathlib import Path

from support import DAY, ArchiveCase, Version

#: 2007-07-23
START = 13_717 * DAY


class Trying(ArchiveCase):
    def tree(self, times: list[int]) -> Path:
        """Files `0.txt`, `1.txt` and so on, last changed at these times."""
        for index, time in enumerate(times):
            file = self.folder / "tree" / f"{index}.txt"
            file.parent.mkdir(exist_ok=True)
            file.write_text(f"text {index}")
            os.utime(file, (time, time))
        return self.folder / "tree"

    def files(self) -> dict[str, bytes]:
        return {file.name: file.read_bytes() for file in self.archive.iterdir()}

    def test_what_would_be_taken(self) -> None:
        tree = self.tree([START + index * DAY for index in range(12)])
        (tree / "long.txt").write_bytes(b"x" * 4_194_305)
        os.utime(tree / "long.txt", (START, START))
        before = self.files()
        tried = self.tt("import", "folder", tree, "--dry-run")
        self.assertEqual(
            tried.stdout,
            "12 versions and 0 deletions would be taken\n"
            "times      2007-07-23 to 2007-08-03\n"
            "documents  12: 0.txt, 1.txt, 2.txt, 3.txt, 4.txt, 5.txt, 6.txt, 7.txt, 8.txt, 9.txt, and 2 more\n"
            "would be refused, TooLong: 1\n",
        )
        self.assertIn("2007-07-23 long.txt", tried.stderr)
        self.assertEqual(self.files(), before)
        done = self.tt("import", "folder", tree)
        self.assertIn("12 versions and 0 deletions are in the archive\nrefused, TooLong: 1\n", done.stdout)
        tried = self.tt("import", "folder", tree, "--dry-run")
        # The one that was refused was told then.
        self.assertIn("0 versions and 0 deletions would be taken\nimported before, until 2007-08-03: 13 changes", tried.stdout)

    def test_snapshots_are_tried_as_they_are_taken(self) -> None:
        for name, text in (("2007-07-23/a.txt", "a"), ("2007-07-23/b.txt", "b"), ("2007-07-24/a.txt", "a again")):
            file = self.folder / "snapshots" / name
            file.parent.mkdir(parents=True, exist_ok=True)
            file.write_text(text)
        self.fill([Version(START - DAY, "b.txt", "b before"), Version(START, "a.txt", "a before")])
        tried = self.tt("import", "folder", self.folder / "snapshots", "--dry-run").stdout
        self.assertIn("2 versions and 1 deletion would be taken\n", tried)
        self.assertIn("documents  2: b.txt, a.txt\nwould be refused, SameTime: 1\n", tried)
        done = self.tt("import", "folder", self.folder / "snapshots").stdout
        self.assertEqual(done, "2 versions and 1 deletion are in the archive\nrefused, SameTime: 1\n")

    def test_all_is_refused(self) -> None:
        self.fill([Version(START + 90 * DAY, "today", "a file of today")])
        tree = self.tree([START + index * DAY for index in range(30)])
        for words in (["--dry-run"], [], ["--dry-run"], []):
            done = self.tt("import", "folder", tree, *words, status=1)
            self.assertIn("refused, TimeBack: 30\n", done.stdout)
            self.assertTrue(done.stderr.endswith("\ntt: all is refused, and nothing of it is in the archive\n"))
            self.assertIn("warning: 30 changes of 30 lie before the archive's last time, 2007-10-21, and are refused", done.stderr)
        self.assertIn(f"\nrefused    folder {tree}, at 2007-10-21\n", self.tt("status").stdout)
        self.tree([START + 91 * DAY])
        done = self.tt("import", "folder", tree)
        self.assertIn("1 version and 0 deletions are in the archive\nrefused, TimeBack: 29\n", done.stdout)
        self.assertIn(f"\nimported   folder {tree}, until 2007-10-22\n", self.tt("status").stdout)
        self.assertIn("imported before, until 2007-10-22: 30 changes\n", self.tt("import", "folder", tree).stdout)

    def test_a_warning_before_the_first_version(self) -> None:
        last = START + 10 * DAY
        self.fill([Version(last, "one", "text")])
        for early, late, warned in ((1, 1, False), (2, 1, True), (0, 3, False), (5, 6, False), (6, 5, True)):
            tree = self.tree([START + index for index in range(early)] + [last + DAY + index for index in range(late)])
            done = self.tt("import", "folder", tree, "--dry-run")
            warning = f"warning: {early} changes of {early + late} lie before the archive's last time, 2007-08-02, and are refused"
            self.assertEqual(warning in done.stderr, warned, (early, late))
            for file in tree.iterdir():
                file.unlink()

    def test_a_source_that_cannot_be_read_was_not_imported(self) -> None:
        self.fill([Version(START + DAY, "one", "text")])
        tree = self.tree([START])
        (tree / "2007-07-23").mkdir()
        (tree / "other").mkdir()
        self.assertIn("aren't named by dates", self.tt("import", "folder", tree, status=1).stderr)
        (tree / "2007-07-23").rmdir()
        self.assertIn("refused, TimeBack: 1", self.tt("import", "folder", tree, status=1).stdout)
