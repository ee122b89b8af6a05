"""A repository with renames, merges, deletions and files that are no text, beside what git says of it."""

from __future__ import annotations

import io
import os
import shlex
import shutil
import subprocess
import tarfile
import tempfile
import unittest
from pathlib import Path
from typing import Iterator
from unittest import mock

from support import ArchiveCase, find_program, needs

DAY = 86_400
START = 10_000 * DAY


class Repository:
    """A git repository made on the spot."""

    def __init__(self, path: Path, like: Path | None = None) -> None:
        self.path = path
        self._trees: dict[str, dict[str, bytes]] = {}
        if like:
            shutil.copytree(like, path, symlinks=True)
        else:
            subprocess.run(["git", "init", "-q", "-b", "main", path], check=True)

    def git(self, *words: str, time: int = START) -> bytes:
        environment = {
            **os.environ,
            **{f"GIT_{who}_{what}": "keeper" for who in ("AUTHOR", "COMMITTER") for what in ("NAME", "EMAIL")},
            "GIT_COMMITTER_DATE": f"@{time} +0000",
            "GIT_AUTHOR_DATE": "@1000 +0000",
            "GIT_CONFIG_GLOBAL": os.devnull,
        }
        return subprocess.run(["git", "-C", self.path, *words], check=True, capture_output=True, env=environment).stdout

    def commit(self, time: int, **files: bytes | None) -> None:
        """A commit of these files; None takes one away. `__` in a name stands for a slash, `_` for a dot."""
        for name, content in files.items():
            path = self.path / name.replace("__", "/").replace("_", ".")
            path.parent.mkdir(exist_ok=True)
            path.unlink() if content is None else path.write_bytes(content)
        self.git("add", "-A")
        self.git("commit", "-q", "--allow-empty", "-m", "change", time=time)

    def tree_at(self, time: int) -> dict[str, bytes]:
        """The files of the last commit before or at a time, by git's own words."""
        commit = self.git("rev-list", "-1", "--first-parent", f"--before=@{time}", "main").decode().strip()
        if commit not in self._trees:
            packed = self.git("archive", "--format=tar", commit) if commit else b""
            self._trees[commit] = dict(_files(packed)) if commit else {}
        return self._trees[commit]


def _files(packed: bytes) -> Iterator[tuple[str, bytes]]:
    with tarfile.open(fileobj=io.BytesIO(packed)) as tar:
        for member in tar:
            file = tar.extractfile(member) if member.isreg() else None
            if file:
                yield member.name, file.read()


def sample(path: Path) -> Repository:
    """Two lines of work, with everything that a history may have."""
    repository = Repository(path)
    repository.commit(START, a_txt=b"red apples\n", b_txt=b"green pears\n", doc__c_txt=b"blue plums\n")
    repository.commit(START + DAY, a_txt=b"red red apples\n", pic_bin=b"\x89PNG\0\0\1\2")
    repository.git("checkout", "-q", "-b", "side")
    repository.commit(START + 2 * DAY, side_txt=b"made on the side\n", b_txt=b"green pears of the side\n")
    repository.commit(START + 3 * DAY, side_txt=b"made on the side, twice\n")
    repository.git("checkout", "-q", "main")
    repository.commit(START + 4 * DAY, doc__c_txt=b"blue plums, ripe\n")
    repository.git("merge", "-q", "--no-ff", "-m", "merge", "side", time=START + 5 * DAY)
    repository.git("mv", "a.txt", "doc/renamed.txt")
    repository.commit(START + 6 * DAY)
    repository.commit(START + 7 * DAY, b_txt=None)
    os.symlink("doc/renamed.txt", path / "link")
    (path / "doc" / "c.txt").unlink()
    os.symlink("renamed.txt", path / "doc" / "c.txt")
    repository.commit(START + 8 * DAY)
    repository.commit(START + 9 * DAY, pic_bin=b"now a text\n", side_txt=b"now \0 binary\n")
    repository.commit(START + 10 * DAY, b_txt=b"green pears again\n", x_txt=b"first of one second\n")
    repository.commit(START + 10 * DAY, x_txt=b"last of one second\n", gone_txt=b"never seen\n")
    repository.commit(START + 10 * DAY, gone_txt=None)
    return repository


def as_texts(tree: dict[str, bytes]) -> dict[str, str]:
    return {name: data.decode() for name, data in tree.items() if b"\0" not in data}


class GitImport(ArchiveCase):
    @classmethod
    def setUpClass(cls) -> None:
        kept = tempfile.TemporaryDirectory()
        cls.addClassCleanup(kept.cleanup)
        cls.sample = sample(Path(kept.name, "sample")).path

    def setUp(self) -> None:
        super().setUp()
        self.repository = Repository(self.folder / "repository", like=self.sample)

    def assert_as_git_says(self, *times: int) -> None:
        for time, texts in zip(times, self.texts_at(*times)):
            self.assertEqual(texts, as_texts(self.repository.tree_at(time)), f"at {time}")

    def all_times(self) -> list[int]:
        return [START - 1, *(START + k * DAY + s for k in range(12) for s in (0, DAY - 1))]

    def test_is_what_git_says_at_all_times(self) -> None:
        done = self.tt("import", "git", self.repository.path)
        self.assert_as_git_says(*self.all_times())
        self.assertIn("symbolic link, so without a text: 2", done.stdout)
        self.assertIn("binary, so without a text: 2", done.stdout)
        self.assertIn("commits that another of the same second replaced: 2", done.stdout)
        self.assertNotIn("refused", done.stdout)

    def test_goes_on_where_it_ended(self) -> None:
        self.tt("import", "git", self.repository.path)
        again = self.tt("import", "git", self.repository.path)
        self.assertIn("0 versions and 0 deletions are in the archive", again.stdout)
        self.assertNotIn("refused", again.stdout)
        self.repository.commit(START + 11 * DAY, new_txt=b"newer\n", x_txt=None)
        more = self.tt("import", "git", self.repository.path)
        self.assertIn("1 version and 1 deletion are in the archive", more.stdout)
        self.assertNotIn("refused", more.stdout)
        self.assert_as_git_says(*self.all_times())

    def test_a_stop_loses_nothing(self) -> None:
        for bytes_taken in (1, 200, 333):
            with self.subTest(bytes_taken=bytes_taken):
                stopping = f"sh -c 'dd bs=1 count={bytes_taken} status=none | {shlex.join(find_program(None))}'"
                self.tt("import", "git", self.repository.path, status=1, TT_ARCHIVE=stopping)
        done = self.tt("import", "git", self.repository.path)
        self.assertNotIn("refused", done.stdout)
        self.assert_as_git_says(*self.all_times())

    def test_what_comes_too_late_is_told_and_counted(self) -> None:
        self.tt("import", "git", self.repository.path)
        other = Repository(self.folder / "other")
        other.commit(START + DAY, early_txt=b"too early\n")
        other.commit(START + 20 * DAY, late_txt=b"late enough\n")
        done = self.tt("import", "git", other.path)
        self.assertIn("1 version and 0 deletions are in the archive", done.stdout)
        self.assertIn("refused, TimeBack: 1", done.stdout)
        self.assertIn(f"early.txt ({other.git('rev-list', 'HEAD').decode().split()[1][:12]}:early.txt): refused: TimeBack", done.stderr)

    def test_what_was_refused_may_come_again(self) -> None:
        self.tt("import", "git", self.repository.path)
        other = Repository(self.folder / "other")
        other.commit(START + DAY, same_txt=b"the same text\n", gone_txt=b"gone before it could come\n")
        other.commit(START + 20 * DAY, same_txt=b"another text\n", gone_txt=None)
        self.tt("import", "git", other.path, "--branch", "HEAD~1", status=1)
        self.assertEqual(self.texts_at(START + 20 * DAY), [as_texts(self.repository.tree_at(START + 20 * DAY))])
        other.commit(START + 21 * DAY, same_txt=b"the same text\n")
        other.commit(START + 21 * DAY, same_txt=b"the same text\n", last_txt=b"last\n")
        done = self.tt("import", "git", other.path)
        self.assertIn("refused, TimeBack: 2", done.stdout)
        self.repository.commit(START + 22 * DAY, a_txt=b"a again\n")
        self.assertNotIn("refused", self.tt("import", "git", self.repository.path).stdout)
        done = self.tt("import", "git", other.path)
        self.assertIn("0 versions and 0 deletions are in the archive\nimported before, until 1997-06-09: 5 changes\n", done.stdout)
        [texts] = self.texts_at(START + 22 * DAY)
        self.assertEqual((texts["same.txt"], texts["last.txt"], texts["a.txt"]), ("the same text\n", "last\n", "a again\n"))
        self.assertNotIn("gone.txt", texts)

    def test_goes_on_within_a_second(self) -> None:
        """An import ends at the first of a second's commits. The next one counts what it takes of the others as taken."""
        self.repository.commit(START + 11 * DAY, one_txt=b"one\n", two_txt=b"two\n")
        self.repository.commit(START + 11 * DAY, three_txt=b"three\n", x_txt=None)
        self.repository.commit(START + 11 * DAY, four_txt=b"four\n")
        self.repository.git("branch", "tip")
        self.repository.git("reset", "-q", "--hard", "HEAD~2")
        self.tt("import", "git", self.repository.path)
        self.repository.git("reset", "-q", "--hard", "tip")
        for words in (["--dry-run"], []):
            done = self.tt("import", "git", self.repository.path, *words)
            self.assertIn("2 versions and 1 deletion ", done.stdout)
            self.assertNotIn("too late", done.stdout)
            self.assertNotIn("another text", done.stdout)
        self.assert_as_git_says(*self.all_times())
        self.repository.commit(START + 11 * DAY, one_txt=b"one, twice in this second\n", five_txt=b"five\n")
        for words in (["--dry-run"], []):
            done = self.tt("import", "git", self.repository.path, *words)
            self.assertIn("1 version and 0 deletions ", done.stdout)
            self.assertNotIn("too late", done.stdout)
            self.assertIn("another text than the archive has of that second, left out: 1\n", done.stdout)
            self.assertIn(":one.txt: another text", done.stderr)
        self.repository.commit(START + 12 * DAY, one_txt=b"one again\n")
        self.tt("import", "git", self.repository.path)
        self.assert_as_git_says(START + 12 * DAY)

    def test_the_present_second_is_left_for_the_next_import(self) -> None:
        now = START + 11 * DAY
        self.repository.commit(now, x_txt=b"one of this second\n")
        with mock.patch("tt_archive_tools.sources.git.clock.time", return_value=now + 0.9):
            done = self.tt("import", "git", self.repository.path)
        self.assertIn("commits from the present second on, left for the next import: 1\n", done.stdout)
        self.assertEqual(self.texts_at(now), [as_texts(self.repository.tree_at(now - 1))])
        self.repository.commit(now, x_txt=b"another of this second\n")
        done = self.tt("import", "git", self.repository.path)
        self.assertTrue(done.stdout.startswith("1 version and 0 deletions"), done.stdout)
        self.assert_as_git_says(*self.all_times())

    def test_each_is_named(self) -> None:
        commits = self.repository.git("rev-list", "--first-parent", "--reverse", "main").decode().split()
        done = self.tt("import", "git", "-v", self.repository.path)
        for before, commit in zip(commits[-3:], commits[-2:]):
            self.assertIn(f"commits that another of the same second replaced: {before[:12]}, by {commit[:12]}\n", done.stderr)
        self.assertIn(f"versions that another of the same second replaced: {commits[-3][:12]}:x.txt\n", done.stderr)
        self.assertNotIn("replaced", self.tt("import", "git", self.repository.path).stderr)

    def test_two_repositories_in_one_order(self) -> None:
        other = Repository(self.folder / "other")
        other.commit(START + DAY + 5, early_txt=b"between\n")
        done = self.tt("import", "git", self.repository.path, other.path)
        self.assertNotIn("refused", done.stdout)
        [texts] = self.texts_at(START + DAY + 5)
        self.assertEqual(texts["other/early.txt"], "between\n")
        self.assertEqual(texts["repository/a.txt"], "red red apples\n")

    def test_commits_older_than_their_parents(self) -> None:
        self.repository.commit(START + 3 * DAY, skewed_txt=b"of a wrong clock\n")
        self.repository.commit(START + 12 * DAY, skewed_txt=b"of a right clock\n")
        done = self.tt("import", "git", self.repository.path)
        self.assertIn("commits older than their parent, taken at its time: 1", done.stdout)
        before, after = self.texts_at(START + 10 * DAY - 1, START + 10 * DAY)
        self.assertNotIn("skewed.txt", before)
        self.assertEqual(after["skewed.txt"], "of a wrong clock\n")

    def test_a_version_that_is_too_long_ends_the_one_before(self) -> None:
        self.repository.commit(START + 11 * DAY, x_txt=b"x" * 4_194_305)
        self.repository.commit(START + 12 * DAY, x_txt=b"short again\n")
        done = self.tt("import", "git", self.repository.path)
        self.assertIn("refused, TooLong: 1", done.stdout)
        before, during, after = self.texts_at(START + 11 * DAY - 1, START + 11 * DAY, START + 12 * DAY)
        self.assertEqual(before["x.txt"], "last of one second\n")
        self.assertNotIn("x.txt", during)
        self.assertEqual(after["x.txt"], "short again\n")

    @needs("utf8")
    def test_texts_and_names_of_other_bytes(self) -> None:
        (self.repository.path / os.fsdecode(b"caf\xe9\t.txt")).write_bytes("Grüße zusammen".encode("iso-8859-1"))
        self.repository.commit(START + 11 * DAY, page_html="<title>Öl</title><p>für <b>alle</b>".encode())
        plain = self.tt("import", "git", self.repository.path, "--charset", "latin-1")
        self.assertIn("texts decoded as cp1252: 1", plain.stdout)
        [texts] = self.texts_at(START + 11 * DAY)
        self.assertEqual(texts["page.html"], "Öl\nfür alle")
        self.assertEqual(texts["caf\udce9\t.txt"], "Grüße zusammen")
        self.assertEqual(self.tt("find", "Zusammen", "--tsv").stdout, "1\tcaf\\xe9\\t.txt\n")
        self.assertEqual(self.tt("show", "caf\\xe9\\t.txt").stdout, "Grüße zusammen\n")

    def test_no_repository(self) -> None:
        done = self.tt("import", "git", self.folder / "none", status=1)
        self.assertIn("No such file or directory", done.stderr)
        done = self.tt("import", "git", self.repository.path, "--branch", "missing", status=1)
        self.assertIn("missing", done.stderr)


if __name__ == "__main__":
    unittest.main()
