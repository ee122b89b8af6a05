"""Both sides of the pipes at work at the same time: many versions under way, refusals among them, stops and pieces."""

from __future__ import annotations

import os
import random
import shlex
import signal
import subprocess
import sys
import time
import unittest
from pathlib import Path

from support import TOOLS, ArchiveCase, find_program, stand_in
from test_git import DAY, START, Repository
from tt_archive_tools.errors import ProgramFailed
from tt_archive_tools.journal import summary
from tt_archive_tools.program import Program, Shard
from tt_archive_tools.replies import ReplyReader

#: In place of tt_archive: refuses every seventh document, at greater length than a pipe holds.
REFUSING = stand_in("'' if int(doc) % 7 else 'Seventh ' + doc.decode() + ' ' + 'x' * 70_000")
FILES, COMMITS = 400, 2
REPLIES = b"""ok 12
text 10
two
lines

hit 1 2
hit 3 1
end 2 read 5
none
span 1 10 20 2
end 1 read 3
segment 0 5 2
node 5 2
end 1 space 2
text 0

no 2 TimeBack 77
plan 5 segments 3 space 2 full 2 horizon 4 cost 9
sound 1 2
ok 13
"""


class ManyUnderWay(ArchiveCase):
    def setUp(self) -> None:
        super().setUp()
        self.repository = Repository(self.folder / "repository")

    def fill_repository(self) -> None:
        for number in range(COMMITS):
            files = {f"file{index}": b"text %d of %d, " % (number, index) * 10 for index in range(FILES)}
            self.repository.commit(START + number * DAY, **files)

    def assert_all_there(self) -> None:
        done = self.tt("import", "git", self.repository.path)
        self.assertNotIn("refused", done.stdout)
        times = [START + number * DAY for number in range(COMMITS)]
        for at, texts in zip(times, self.texts_at(*times)):
            wanted = {name: data.decode() for name, data in self.repository.tree_at(at).items()}
            self.assertEqual(texts, wanted)
        self.assertEqual(summary([Shard(self.archive)]).arrivals, FILES * COMMITS)

    def after(self, size: int, then: str) -> str:
        """The program, which gets so many bytes; then another command has its input."""
        return f"sh -c '{{ dd bs=1 count={size} status=none; {then}; }} | {shlex.join(find_program(None))}'"

    def test_each_refusal_is_told_of_its_document(self) -> None:
        refusing = self.folder / "refusing"
        refusing.write_text(REFUSING)
        tree = self.folder / "tree"
        tree.mkdir()
        for index in range(1, 1_001):
            (tree / f"{index}.txt").write_text(f"text {index} " * 50)
            os.utime(tree / f"{index}.txt", (START + index, START + index))
        done = self.tt("import", "folder", tree, TT_ARCHIVE=f"{sys.executable} -S -E {refusing}")
        self.assertEqual(done.stdout, "858 versions and 0 deletions are in the archive\nrefused, Seventh: 142\n")
        told = [line.split() for line in done.stderr.splitlines() if "refused: Seventh" in line]
        self.assertEqual([(words[1], words[5]) for words in told[:10]], [(f"{n}.txt", f"{n}") for n in range(7, 77, 7)])

    def test_a_stop_among_many(self) -> None:
        self.fill_repository()
        for size in (45_000, 75_001):
            self.tt("import", "git", self.repository.path, status=1, TT_ARCHIVE=self.after(size, "true"))
        self.assertGreater(summary([Shard(self.archive)]).arrivals, FILES // 2)
        self.assert_all_there()

    def test_a_stop_from_the_keyboard(self) -> None:
        self.fill_repository()
        words = [sys.executable, str(TOOLS / "tt"), "-C", str(self.archive), "import", "git", str(self.repository.path)]
        environment = {**os.environ, "TT_ARCHIVE": self.after(60_000, "cat >/dev/null")}
        with subprocess.Popen(words, env=environment, stdout=subprocess.PIPE, stderr=subprocess.PIPE) as tt:
            until = time.monotonic() + 60
            while (self.archive / "archive.journal").stat().st_size < 35_000 and time.monotonic() < until:
                time.sleep(0.01)
            tt.send_signal(signal.SIGINT)
            _, said = tt.communicate()
        self.assertEqual((tt.returncode, said.startswith(b"tt: stopped")), (130, True), said)
        self.assert_all_there()

    def test_a_content_that_git_cannot_give(self) -> None:
        self.fill_repository()
        blob = self.repository.git("rev-parse", "HEAD:file200").decode().strip()
        stored = Path(self.repository.path, ".git", "objects", blob[:2], blob[2:])
        stored.chmod(0o600)
        os.truncate(stored, stored.stat().st_size // 2)
        done = self.tt("import", "git", self.repository.path, status=1)
        self.assertIn(":file200: git doesn't have this file's content", done.stderr)

    def test_git_ends_with_the_import(self) -> None:
        self.repository.commit(START, one_txt=b"one")
        noting = self.folder / "noting"
        noting.mkdir()
        (noting / "git").write_text(f"#!/bin/sh\necho $$ >>'{noting}/pids'\nPATH=${{PATH#*:}} exec git \"$@\"\n")
        (noting / "git").chmod(0o755)
        path = f"{noting}:{os.environ['PATH']}"
        self.tt("import", "git", self.repository.path, PATH=path)
        self.tt("import", "git", self.repository.path, "--branch", "none", status=1, PATH=path)
        self.tt("import", "git", self.repository.path, status=1, PATH=path, TT_ARCHIVE="false")
        (self.archive / "names.tsv").write_text("no table\n")
        self.tt("import", "git", self.repository.path, status=1, PATH=path)
        pids = (noting / "pids").read_text().split()
        self.assertGreater(len(pids), 3)
        for pid in pids:
            self.assertRaises(ProcessLookupError, os.kill, int(pid), 0)

    def test_the_end_of_a_program_that_has_much_to_print(self) -> None:
        program = Program(["sh", "-c", "cat >&2; head -c 1000000 /dev/zero; exit 3"], Shard(self.folder))
        self.assertEqual(bytes(program.write(memoryview(b"said"))), b"")
        program.end_input()
        self.assertEqual(program.wait(), (3, "said"))


class RepliesInPieces(unittest.TestCase):
    def test_wherever_they_are_cut(self) -> None:
        whole = list(ReplyReader().replies(REPLIES))
        self.assertEqual(len(whole), 11)
        chance = random.Random(3)
        for most in (1, 2, 5, 40):
            reader, start, replies = ReplyReader(), 0, []
            while start < len(REPLIES):
                end = start + chance.randint(1, most)
                replies += reader.replies(REPLIES[start:end])
                start = end
            reader.end()
            self.assertEqual(replies, whole)

    def test_an_end_within_one_shows(self) -> None:
        whole = 0
        for end in range(len(REPLIES)):
            reader = ReplyReader()
            list(reader.replies(REPLIES[:end]))
            try:
                reader.end()
                whole += 1
            except ProgramFailed:
                pass
        self.assertEqual(whole, 11)

    def test_what_is_no_reply(self) -> None:
        for line in (b"\n", b"ok\n", b"ok x\n", b"text\n", b"text y\n", b"hit 1\n", b"yes 1\n"):
            with self.assertRaisesRegex(ProgramFailed, "no reply"):
                list(ReplyReader().replies(line))


if __name__ == "__main__":
    unittest.main()
