"""A document's versions, what each changed, and the names of documents, beside the versions that were put in."""

from __future__ import annotations

import shutil
import subprocess
import sys
import unittest

from support import DAY, TOOLS, ArchiveCase, Version, sample
from tt_archive_tools.times import show_time

#: 2007-07-23
START = 13_717 * DAY
BRIDGE = [
    Version(START, "law/bridge.txt", "The bridge is open.\nThe toll is two pence.\n"),
    Version(START + DAY, "law/bridge.txt", "The bridge is closed.\nThe toll is two pence.\n"),
    Version(START + DAY, "Café", "Coffee."),
    Version(START + 2 * DAY, "law/bridge.txt", None),
    Version(START + 3 * DAY, "law/bridge.txt", "The bridge is open again."),
    Version(START + 4 * DAY, "Café", None),
]


class Documents(ArchiveCase):
    def setUp(self) -> None:
        super().setUp()
        self.fill(BRIDGE)

    def test_log(self) -> None:
        self.assertEqual(
            self.tt("log", "law/bridge.txt").stdout,
            "time        bytes\n"
            "2007-07-23     43\n"
            "2007-07-24     45\n"
            "2007-07-25   ends\n"
            "2007-07-26     25\n"
            "3 versions; a text now\n",
        )
        self.assertEqual(self.tt("log", "#2", "--tsv").stdout, "2007-07-24\t7\n2007-07-27\tends\n")
        self.assertTrue(self.tt("log", "Café").stdout.endswith("\n1 version; no text since 2007-07-27\n"))
        self.assertIn("#7 has no version", self.tt("log", "#7", status=1).stderr)

    def test_diff(self) -> None:
        first = "The bridge is open.\nThe toll is two pence.\n".splitlines()
        self.assertEqual(
            self.tt("diff", "law/bridge.txt", "--at", "2007-07-24T12:00").stdout,
            "--- law/bridge.txt\t2007-07-23\n+++ law/bridge.txt\t2007-07-24\n@@ -1,2 +1,2 @@\n"
            "-The bridge is open.\n+The bridge is closed.\n The toll is two pence.\n",
        )
        self.assertEqual(
            self.tt("diff", "law/bridge.txt", "--at", "2007-07-23").stdout,
            "--- /dev/null\n+++ law/bridge.txt\t2007-07-23\n@@ -0,0 +1,2 @@\n" + "".join(f"+{line}\n" for line in first),
        )
        # A text that ends, and one without a last line feed.
        self.assertIn("+++ /dev/null\t2007-07-25\n@@ -1,2 +0,0 @@\n-The bridge is closed.\n", self.tt("diff", "law/bridge.txt", "--at", "2007-07-25").stdout)
        said = self.tt("diff", "law/bridge.txt").stdout
        self.assertTrue(said.endswith("@@ -0,0 +1 @@\n+The bridge is open again.\n\\ No newline at end of file\n"), said)
        # All that changed since a time.
        said = self.tt("diff", "law/bridge.txt", "--from", "2007-07-23T05:00").stdout
        self.assertTrue(said.startswith("--- law/bridge.txt\t2007-07-23\n+++ law/bridge.txt\t2007-07-26\n@@ -1,2 +1 @@\n"), said)
        self.assertEqual(self.tt("diff", "law/bridge.txt", "--from", "2007-07-26").stdout, "")
        self.assertIn("isn't before the second", self.tt("diff", "Café", "--from", "2008", "--at", "2007-12", status=1).stderr)
        self.assertIn(
            "Café has no text at 2007-07-23: its first version begins at 2007-07-24, which `--at 2007-07-24` shows",
            self.tt("diff", "Café", "--at", "2007-07-23", status=1).stderr,
        )

    @unittest.skipUnless(shutil.which("patch"), "patch isn't installed")
    def test_a_difference_is_what_patch_takes(self) -> None:
        texts = ["a\nb\n", "b", "--- a\n+++ b", "", "b\r\nc\n\n", "x\x0cy\nb\n"]
        self.fill([Version(START + (5 + index) * DAY, "odd", text) for index, text in enumerate(texts)])
        file = self.folder / "odd"
        for index, text in enumerate(texts):
            changes = self.tt("diff", "odd", "--at", f"@{START + (5 + index) * DAY}").stdout.encode()
            if text or file.exists():
                subprocess.run(["patch", "--binary", "-s", file], input=changes, check=True, cwd=self.folder)
            self.assertEqual(file.read_bytes() if file.exists() else b"", text.encode(), changes)

    def test_why_there_is_no_text(self) -> None:
        for name, at, why in (
            ("Café", "now", "now: it ended at 2007-07-27, and `--at 2007-07-26T23:59:59Z` shows what it had before"),
            ("law/bridge.txt", "2007-07-25", "at 2007-07-25: it ended at 2007-07-25, and `--at 2007-07-24T23:59:59Z` shows what it had before"),
            ("Café", "2007", "at 2007-01-01: its first version begins at 2007-07-24, which `--at 2007-07-24` shows"),
            ("#9", "now", "now: it never had one"),
        ):  # fmt: skip
            self.assertEqual(self.tt("show", name, "--at", at, status=1).stderr, f"tt: {name} has no text {why}\n")
        self.assertEqual(self.tt("show", "Café", "--at", "2007-07-26T23:59:59Z").stdout, "Coffee.\n")

    def test_names(self) -> None:
        self.fill([Version(START + 5 * DAY, "Zum Cafe\t1", "x"), Version(START + 6 * DAY, "Zum Cafe\t1", "y")])
        self.assertEqual(
            self.tt("names", "CAFE").stdout,
            "versions  until       document\n1         2007-07-27  Café\n2         now         Zum Cafe\\t1\n2 of 3 names\n",
        )
        self.assertEqual(self.tt("names", "--tsv", "--limit", 2).stdout, "1\t2007-07-27\tCafé\n2\tnow\tZum Cafe\\t1\n")
        self.assertEqual(self.tt("names", "tower").stdout, "0 of 3 names\n")
        self.assertIn("near it: Café\n", self.tt("show", "CAFE", status=1).stderr)
        self.assertIn("no document is named 'tower', nor nearly so: `tt names PART`", self.tt("log", "tower", status=1).stderr)

    def test_they_wait_for_nobody_and_run_nothing(self) -> None:
        with self.open():
            for words in (("log", "Café"), ("diff", "Café"), ("names", "a")):
                self.tt("--wait", 0, "--program", "/none", *words)
        done = subprocess.run([sys.executable, TOOLS / "tt", "-C", self.folder, "names"], capture_output=True, text=True)
        self.assertIn("has no archive: `tt init", done.stderr)

    def test_versions_are_those_that_were_put_in(self) -> None:
        versions = sample(seed=5, documents=6, count=80)
        self.archive = self.folder / "sample"
        self.tt("init", self.archive)
        self.fill(versions)
        self.tt("shard", 3, self.folder / "shards")
        for folder in (self.archive, self.folder / "shards"):
            for name in {version.name for version in versions}:
                wanted = [version for version in versions if version.name == name]
                rows = [f"{show_time(v.time)}\t{'ends' if v.text is None else len(v.text)}" for v in wanted]
                self.assertEqual(self.tt("-C", folder, "log", name, "--tsv").stdout.splitlines(), rows)
                for before, version in zip([None, *(v.text for v in wanted)], wanted):
                    added = [line[1:] for line in self.tt("-C", folder, "diff", name, "--at", f"@{version.time}").stdout.splitlines()[3:] if line[0] == "+"]
                    self.assertEqual(added, [] if version.text in (None, before) else [version.text])
        held = self.tt("-C", self.folder / "shards", "names", "--tsv").stdout
        self.assertEqual(held, self.tt("names", "--tsv").stdout)
        table = self.folder / "shards" / "shards.tsv"
        table.write_text(table.read_text().replace("shard-1", "/shard-1\telsewhere"))
        away = next(row.split("\t")[2] for row in self.tt("-C", self.folder / "shards", "names", "--tsv").stdout.splitlines() if row.startswith("-"))
        self.assertIn(f"{away} is in elsewhere:/shard-1, and its versions", self.tt("-C", self.folder / "shards", "log", away, status=1).stderr)


if __name__ == "__main__":
    unittest.main()
