"""A git repository: the files of one branch, as they were after each of its commits.

The line of first parents is followed, so a merge shows at its own time what it brought. A commit
stands at its committer time, or at its parent's where that is later; of the commits of one second
the last one counts. A renamed file ends under the old name and begins under the new one. Files
that git would call binary, symbolic links and submodules have no text. Commits of the second in which
the import begins are left for the next one, since that second may still bring others.

Three commands of git (2.31 or newer) run beside the import: the commits, what each changed, and the
contents, which are asked for ahead. They begin before the rest of the tools is loaded and the archive
is open, since the oldest commit is the last that git comes to.
"""

from __future__ import annotations

import os
import time as clock
from contextlib import ExitStack, suppress
from io import BufferedReader
from itertools import islice
from pathlib import Path
from subprocess import DEVNULL, PIPE, Popen
from typing import IO, TYPE_CHECKING, Iterator, NamedTuple

from ..errors import InputError

if TYPE_CHECKING:
    from ..changes import Change, Notes
    from ..texts import Reading

_FILES = {b"100644", b"100755"}
_KINDS = {b"120000": "symbolic link, so without a text", b"160000": "submodule, so without a text"}
_GONE = b"000000"
#: What each commit of the line of first parents changed, behind its hash and time.
_COMMITS = ("rev-list", "--first-parent", "--reverse")
_CHANGES = ("diff-tree", "--stdin", "--root", "--diff-merges=first-parent", "--always", "--format=%H %ct",
            "-r", "-z", "--raw", "--no-renames", "--no-abbrev")  # fmt: skip
#: So many contents are asked for at once, at first fewer, so that the first comes soon. The names of two
#: batches fit into a pipe, which so never blocks.
_FIRST, _BATCH = 16, 64
_PIECE = 1 << 16


class _FileChange(NamedTuple):
    commit: str
    time: int
    path: str
    mode: bytes
    blob: bytes


class GitSource:
    """One branch of a repository. A context: git runs from when it is entered until it is left."""

    def __init__(self, repository: Path, branch: str = "HEAD", only: tuple[str, ...] = (), prefix: str = "") -> None:
        self.repository = repository
        self.branch = branch
        self.only = only
        self.prefix = prefix
        self._running = ExitStack()

    def __enter__(self) -> GitSource:
        self._present = int(clock.time())
        with ExitStack() as running:
            self._commits = self._start(running, *_COMMITS, self.branch, "--", stderr=PIPE)
            self._trees = self._start(running, *_CHANGES, "--", *self.only, stdin=self._commits.stdout)
            self._blobs = self._start(running, "cat-file", "--batch", stdin=PIPE)
            self._running = running.pop_all()
        return self

    def __exit__(self, *_: object) -> None:
        self._running.close()

    @property
    def identity(self) -> str:
        parts = ("git", str(self.repository.resolve()), self.branch, self.prefix, *self.only)
        return " ".join(part for part in parts if part)

    def changes(self, reading: Reading, notes: Notes) -> Iterator[Change]:
        from ..changes import Change  # git walks while this is loaded

        for change in _asked_for(self._blobs, _differences(self._trees, self._present, notes)):
            place = f"{change.commit[:12]}:{change.path}"
            text = _text(change, self._blobs, reading, place, notes)
            yield Change(change.time, self.prefix + change.path, text, place)
        self._check(self._commits)
        if self._trees.wait() != 0:
            raise InputError(str(self.repository), "git diff-tree failed (git 2.31 or newer is needed)")

    def _start(
        self, running: ExitStack, *words: str, stdin: IO[bytes] | int | None = DEVNULL, stderr: int = DEVNULL
    ) -> Popen[bytes]:
        """A git command that runs beside this program, and ends with it."""
        words = ("git", "-C", str(self.repository), *words)
        env = {**os.environ, "GIT_FLUSH": "0"}  # commits come in whole pieces, and not one by one
        try:
            process = Popen(words, _PIECE, stdin=stdin, stdout=PIPE, stderr=stderr, env=env, start_new_session=True)
        except FileNotFoundError:
            raise InputError(str(self.repository), "git isn't installed: install the package git") from None
        running.callback(_end, process)
        return process

    def _check(self, commits: Popen[bytes]) -> None:
        """An error where there is no repository or no such branch."""
        assert commits.stderr
        said = commits.stderr.read().decode("utf-8", "replace").strip().splitlines() or ["git failed"]
        if commits.wait() != 0:
            if any("bad revision" in line for line in said):
                raise InputError(str(self.repository), f"there is no commit {self.branch}")
            raise InputError(str(self.repository), next((line for line in said if line.startswith("fatal:")), said[-1]))


def _end(process: Popen[bytes]) -> None:
    process.kill()
    process.communicate()


def _differences(trees: Popen[bytes], present: int, notes: Notes) -> Iterator[_FileChange]:
    """What each commit changed until the present second: its hash and time, and then for each file two
    modes, two contents and a letter, and its path."""
    commit, latest, left = "", -1, False
    fields = _fields(trees)
    for field in fields:
        if b":" not in field:
            before, (commit, seconds) = commit, field.decode().split()
            time = int(seconds)
            left = left or max(time, latest) == present
            if left:
                notes.count("commits from the present second on, left for the next import", commit[:12])
                continue
            if time < latest:
                notes.count("commits older than their parent, taken at its time", commit[:12])
            if time <= latest:
                notes.count("commits that another of the same second replaced", f"{before[:12]}, by {commit[:12]}")
            latest = max(time, latest)
            continue
        _, mode, _, blob, _ = field.split(b" ")
        if (path := next(fields, None)) is None:
            return  # git was stopped, which its status tells
        if not left:
            yield _FileChange(commit, latest, path.decode("utf-8", "surrogateescape"), mode, blob)


def _fields(process: Popen[bytes]) -> Iterator[bytes]:
    """The fields of git's -z output."""
    assert isinstance(process.stdout, BufferedReader)
    rest = b""
    while piece := process.stdout.read1(_PIECE):
        *whole, rest = (rest + piece).split(b"\0")
        yield from whole


def _asked_for(blobs: Popen[bytes], changes: Iterator[_FileChange]) -> Iterator[_FileChange]:
    """The changes, with the contents of all files asked for in their order, a batch or two ahead."""
    assert blobs.stdin
    asked: list[_FileChange] = []
    most = _FIRST
    while True:
        batch = list(islice(changes, most))
        with suppress(BrokenPipeError):  # what then is missing is told where it is read
            blobs.stdin.write(b"".join(change.blob + b"\n" for change in batch if change.mode in _FILES))
            blobs.stdin.flush()
        yield from asked
        if not batch:
            return
        asked, most = batch, min(2 * most, _BATCH)


def _text(
    change: _FileChange, blobs: Popen[bytes], reading: Reading, place: str, notes: Notes
) -> bytes | None:
    if change.mode not in _FILES:
        if change.mode != _GONE:
            notes.add(_KINDS.get(change.mode, "of no known kind, so without a text"), place)
        return None
    assert blobs.stdout
    header = blobs.stdout.readline().split()
    size = int(header[2]) if len(header) == 3 else -1
    data = blobs.stdout.read(size + 1)
    if size < 0 or len(data) <= size:
        raise InputError(place, "git doesn't have this file's content (a partial clone?)")
    return reading.of_file(data[:-1], change.path, place, notes)
