"""Archives with copies, through pipes: fed twice, asked where the first place is lost, and brought up."""

from __future__ import annotations

import os
import shlex
import shutil
import signal
import subprocess
import sys
import time
from pathlib import Path

from support import DAY, TOOLS, ArchiveCase, find_program, needs
from tt_archive_tools import commands
from tt_archive_tools.errors import ToolError
from tt_archive_tools.places import level_copies, shards_of, table_of, write_table
from tt_archive_tools.program import Shard
from tt_archive_tools.sides import end_of

FILES = 80
START = 13_717 * DAY


class Copies(ArchiveCase):
    """Two archives, each with one copy."""

    def setUp(self) -> None:
        super().setUp()
        self.tree = self.folder / "tree"
        self.tree.mkdir()
        self.add_files(0, FILES)
        self.tt("shard", 2, self.folder / "two", "--empty")
        self.archive = self.folder / "two"
        for number in range(2):
            (self.archive / f"copy-{number}").mkdir()
        (self.archive / "shards.tsv").write_text("".join(f"shard-{number}\t\tcopy-{number}\n" for number in range(2)))

    def add_files(self, start: int, end: int) -> None:
        for index in range(start, end):
            file = self.tree / f"{index}.txt"
            file.write_text(f"text {index} w{index % 5} " * 10)
            os.utime(file, (START + 60 * index, START + 60 * index))

    def only(self, folder: str, then: str) -> str:
        """The program, but in one of the folders something else comes in the place of its whole input."""
        return f"sh -c 'case $PWD in */{folder}) {then};; *) cat;; esac | {shlex.join(find_program(None))}'"

    def journal(self, folder: str) -> bytes:
        return (self.archive / folder / "archive.journal").read_bytes()

    def level(self) -> set[str]:
        return {copy.folder.name for _, copy in level_copies(self.archive)}

    def assert_level(self) -> None:
        self.assertEqual(self.level(), {"copy-0", "copy-1"})
        for number in range(2):
            self.assertEqual(self.journal(f"shard-{number}"), self.journal(f"copy-{number}"))

    def assert_whole(self, files: int = FILES) -> None:
        [texts] = self.texts_at(START + DAY)
        self.assertEqual(texts, {f"{index}.txt": f"text {index} w{index % 5} " * 10 for index in range(files)})

    def lose(self, folder: str) -> None:
        (self.archive / folder).rename(self.folder / folder)

    def find_back(self, folder: str) -> None:
        shutil.rmtree(self.archive / folder, ignore_errors=True)
        (self.folder / folder).rename(self.archive / folder)

    def test_all_copies_get_all(self) -> None:
        self.tt("import", "folder", self.tree)
        self.assert_level()
        self.assert_whole()

    @needs("plans", "batches")
    def test_plans_are_copied_too(self) -> None:
        self.tt("import", "folder", self.tree)
        self.tt("plan", "text", "guarantee", "3/2")
        self.assert_level()
        shutil.rmtree(self.archive / "copy-1")
        (self.archive / "copy-1").mkdir()
        said = self.tt("plan", "w1", "guarantee", "2/1").stderr
        # The mark, batches of 8 and twice 16 changes, and a plan.
        self.assertIn(f"{self.archive}/copy-1 was brought up by 5 entries", said)
        self.assert_level()

    def test_a_copy_answers_where_the_first_place_is_lost(self) -> None:
        self.tt("import", "folder", self.tree)
        wanted = self.tt("find", "w3").stdout
        self.lose("shard-1")
        done = self.tt("find", "w3")
        self.assertEqual(done.stdout, wanted)
        self.assertIn(f"{self.archive}/copy-1 is asked in its place\n", done.stderr)
        # Without the first place nothing is changed.
        self.add_files(FILES, FILES + 3)
        self.assertIn("shard-1", self.tt("import", "folder", self.tree, status=1).stderr)
        # And without a copy there is no answer, and no part of one.
        self.lose("copy-1")
        done = self.tt("find", "w3", status=1)
        self.assertEqual(done.stdout, "")
        self.assertIn("shard-1", done.stderr)
        self.assertIn("copy-1", done.stderr)

    def test_a_program_that_ends_while_it_is_asked(self) -> None:
        self.tt("import", "folder", self.tree)
        wanted = self.tt("find", "w3", "--snippets").stdout
        done = self.tt("find", "w3", "--snippets", TT_ARCHIVE=self.only("shard-0", "sed -u 3q"))
        self.assertEqual(done.stdout, wanted)
        self.assertIn("copy-0 is asked in its place", done.stderr)

    def test_a_copy_that_is_lost_in_an_import_is_brought_up_by_the_next(self) -> None:
        done = self.tt("import", "folder", self.tree, TT_ARCHIVE=self.only("copy-1", "dd bs=1 count=2500 status=none"))
        self.assertIn(f"{FILES} versions", done.stdout)
        self.assertIn(f"tt: the copy {self.archive}/copy-1 is left out, and the next change brings it up: ", done.stderr)
        self.assertEqual(self.level(), {"copy-0"})
        self.assertLess(len(self.journal("copy-1")), len(self.journal("shard-1")))
        # It isn't asked of what it may lack, but of what lies before its last time.
        self.lose("shard-1")
        early = self.tt("find", "text", "--at", f"@{START + 60}")
        self.assertEqual(early.stdout.splitlines()[-1].partition(" at ")[0], "2 documents")
        done = self.tt("find", "text", status=1)
        self.assertEqual(done.stdout, "")
        self.assertIn("copy-1 is a copy that may lack what came at", done.stderr)
        self.assertIn("isn't asked of it", self.tt("between", "text", "--to", "2100", status=1).stderr)
        self.find_back("shard-1")
        done = self.tt("import", "folder", self.tree)
        self.assertRegex(done.stderr, r"\S*/copy-1 was brought up by \d+ entries\n")
        self.assert_level()
        self.assert_whole()

    def test_an_import_whose_first_place_is_lost_goes_on_later(self) -> None:
        for size in (0, 700, 2_000):
            said = self.tt("import", "folder", self.tree, status=1, TT_ARCHIVE=self.only("shard-0", f"dd bs=1 count={size} status=none")).stderr
            self.assertIn("its copies can be asked, and nothing is changed without it\n", said)
            self.assertEqual(self.level(), set())
        done = self.tt("import", "folder", self.tree)
        self.assertNotIn("refused", done.stdout)
        self.assertNotIn("left out", done.stderr)
        self.assert_whole()

    def cut_first_place(self) -> None:
        """What came last, a deletion, is gone from the first place of the second archive, but not from its copy."""
        self.tt("import", "folder", self.tree)
        with self.open() as collection:
            doc = collection.names.number("1.txt")
            self.assertEqual(collection.side_of(doc), 0)
            collection.ask_side(0, commands.delete(doc, START + DAY))
        whole = self.journal("shard-0")
        self.assertEqual(whole, self.journal("copy-0"))
        (self.archive / "shard-0" / "archive.journal").write_bytes(whole[: -1 - 13 - 5] + b"\0")
        (self.archive / "level.tsv").write_text("")

    def test_a_copy_that_is_ahead(self) -> None:
        """What wasn't acknowledged came to the copy alone, as the first place was lost."""
        self.cut_first_place()
        said = self.tt("import", "folder", self.tree).stderr
        self.assertIn(f"tt: {self.archive}/shard-0 was brought up by 1 entry\n", said)
        self.assert_level()

    def test_a_copy_that_went_another_way(self) -> None:
        self.cut_first_place()
        subprocess.run(find_program(None), cwd=self.archive / "shard-0", input=commands.delete(2, START + DAY + 1), stdout=subprocess.DEVNULL)
        said = self.tt("import", "folder", self.tree).stderr
        self.assertIn("so it is no copy: delete its two files, and it is made anew", said)
        self.assertEqual(self.level(), {"copy-1"})
        shutil.rmtree(self.archive / "copy-0")
        (self.archive / "copy-0").mkdir()
        self.tt("import", "folder", self.tree)
        self.assert_level()

    def test_copies_that_differ(self) -> None:
        self.tt("import", "folder", self.tree)
        # To the question for its last time the copy answers that there is no such document.
        other = self.only("copy-0", "sed -u s/4294967295.0$/4294967295\\ 1099511627775/")
        self.assertIn("so they are no copies of one another", self.tt("import", "folder", self.tree, status=1, TT_ARCHIVE=other).stderr)

    def test_after_a_kill_nothing_acknowledged_is_missing(self) -> None:
        """KILL to tt in the middle of an import: its programs work on for as long as they have input, and the next tt waits."""
        slow = f"sh -c '{{ dd bs=1 count=3000 status=none; sleep 1; cat; }} | {shlex.join(find_program(None))}'"
        run = [sys.executable, str(TOOLS / "tt"), "-C", str(self.archive), "import", "folder", str(self.tree)]
        with subprocess.Popen(run, env={**os.environ, "TT_ARCHIVE": slow}, stdout=subprocess.PIPE, stderr=subprocess.PIPE) as tt:
            until = time.monotonic() + 30
            while not self.is_begun() and time.monotonic() < until:
                time.sleep(0.01)
            tt.send_signal(signal.SIGKILL)
            tt.communicate()
        done = self.tt("--wait", "60s", "import", "folder", self.tree)
        self.assertNotIn("refused", done.stdout)
        self.assert_level()
        self.assert_whole()

    def is_begun(self) -> bool:
        journal = self.archive / "copy-1" / "archive.journal"
        return journal.exists() and journal.stat().st_size > 100

    @needs("batches")
    def test_copies_on_other_machines(self) -> None:
        (self.folder / "bin").mkdir()
        ssh = self.folder / "bin" / "ssh"
        ssh.write_text('#!/bin/sh\n# Runs here what is meant for there.\n[ "$1" = away ] && exit 255\nshift\nexec sh -c "$*"\n')
        ssh.chmod(0o755)
        path = {"PATH": f"{ssh.parent}:{os.environ['PATH']}"}
        lines = [f"{self.archive}/shard-{number}\tnear\t{self.archive}/copy-{number}\tfar\n" for number in range(2)]
        (self.archive / "shards.tsv").write_text("".join(lines))
        self.tt("import", "folder", self.tree, **path)
        self.assert_level()
        self.add_files(FILES, FILES + 10)
        (self.archive / "shards.tsv").write_text("".join(lines).replace("copy-1\tfar", "copy-1\taway"))
        self.assertIn("the copy away:", self.tt("import", "folder", self.tree, **path).stderr)
        (self.archive / "shards.tsv").write_text("".join(lines))
        self.assertIn("was brought up by 1 entry", self.tt("import", "folder", self.tree, **path).stderr)
        self.assert_level()
        wanted = self.tt("find", "w3", **path).stdout
        (self.archive / "shards.tsv").write_text("".join(lines).replace("near", "away"))
        self.assertEqual(self.tt("find", "w3", **path).stdout, wanted)
        # A journal that is gone isn't made anew there, which would answer that nothing is found.
        (self.archive / "copy-1" / "archive.journal").unlink()
        self.assertIn("archive.journal is gone", self.tt("find", "w3", status=1, **path).stderr)

    def test_the_table(self) -> None:
        table = [
            (Shard(self.archive / "a"), Shard(Path("/b"), "login")),
            (Shard(Path("/c"), worker="worker-a"), Shard(self.archive / "d"), Shard(Path("/e"), worker="worker-b")),
        ]
        write_table(self.archive, table)
        self.assertEqual((self.archive / "shards.tsv").read_text(), "a\t\t/b\tlogin\n/c\tdask:worker-a\td\t\t/e\tdask:worker-b\n")
        self.assertEqual(table_of(self.archive), table)
        self.assertEqual(shards_of(self.archive), [places[0] for places in table])
        write_table(self.archive, table[1:])
        self.assertIn("no cluster is started", self.tt("import", "folder", self.tree, status=1).stderr)
        for line, said in (("here\tdask:w\n", "is a whole path"), ("\n", "has no folder"), ("", "there is no shard")):
            (self.archive / "shards.tsv").write_text(line)
            with self.assertRaisesRegex(ToolError, said):
                table_of(self.archive)

    def test_which_times_a_question_rests_on(self) -> None:
        for question, end in (
            (commands.find(7, "a or b"), 8),
            (commands.show(3, 7), 8),
            (commands.between(1, 9, "a"), 9),
            (commands.verify(), None),
            (commands.certificate("a"), None),
            (commands.delete(commands.NO_DOCUMENT, 0), None),
        ):
            self.assertEqual(end_of(question), end, question)
