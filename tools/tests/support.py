"""What the tests of the tools share: a folder, the tools run as a user runs them, and what a program answers."""

from __future__ import annotations

import functools
import io
import os
import random
import subprocess
import sys
import tempfile
import unittest
from contextlib import redirect_stderr, redirect_stdout
from dataclasses import dataclass
from pathlib import Path
from typing import Callable, TypeVar
from unittest import mock

TESTS = Path(__file__).resolve().parent
TOOLS = TESTS.parent
sys.path.insert(0, str(TOOLS))

from tt_archive_tools import commands  # noqa: E402
from tt_archive_tools.cli import main  # noqa: E402
from tt_archive_tools.collection import Collection  # noqa: E402
from tt_archive_tools.journal import HEADER, entries_from  # noqa: E402
from tt_archive_tools.program import find_program  # noqa: E402
from tt_archive_tools.replies import Ok, Text  # noqa: E402

T = TypeVar("T")
DAY = 86_400

#: What a program may not answer yet: a script, and the reply of one that does; and the words that it is given.
_PROBES = {
    "utf8": (b"arrive 1 1 2\n\xc3\xa9\n", b"ok 1\n"),
    "queries": (b"arrive 1 1 3\na b\nfind 1 a not c\n", b"ok 1\nhit 1 1\nend 1 read 1\n"),
    "between": (b"between 1 2 a\n", b"end 0 read 0\n"),
    "propose": (b"propose a guarantee 1/1\n", b"no 13 UnknownWord\n"),
    "plans": (b"certificate a\n", b"no 13 UnknownWord\n"),
    "sublists": (
        b"arrive 1 1 1\na\ndelete 1 2\narrive 1 3 1\na\ndelete 1 4\nplan a guarantee 1/1\nfind 1 a\n",
        b"ok 1\nok 2\nok 3\nok 4\nplan 5 segments 3 space 2 full 2 horizon 4\nhit 1 1\nend 1 read 1\n",
    ),
    "space": (b"plan a space 1/1 uniform\n", b"no 13 UnknownWord\n"),
    "shares": (b"share 1/1 a\n", b"no 13 UnknownWord in 1\n"),
    "mark": (b"format 2\n", b"ok 1\n"),
    "batches": (b"format 2\nbatch 1\narrive 1 1 1\na\n", b"ok 1\nok 2\n"),
    "follow": (b"", b"end 0\n", "--follow"),
}


@dataclass(frozen=True)
class Version:
    """From a time on a document has a text, or none."""

    time: int
    name: str
    text: str | None


@dataclass(frozen=True)
class Done:
    """What a command printed."""

    stdout: str
    stderr: str


def sample(seed: int, documents: int, count: int) -> list[Version]:
    """Versions of texts of the words w0 to w9, some of them deletions."""
    chance = random.Random(seed)
    alive: dict[str, int] = {}
    versions = []
    for index in range(count):
        time = 1_000 * DAY + index * DAY // 2
        name = f"doc{chance.randrange(documents)}"
        if name in alive and chance.random() < 0.2:
            del alive[name]
            versions.append(Version(time, name, None))
            continue
        alive[name] = time
        words = [f"w{min(chance.randrange(10), chance.randrange(10))}" for _ in range(chance.randrange(1, 8))]
        versions.append(Version(time, name, " ".join(words)))
    return versions


def stand_in(refusal: str) -> str:
    """A script in place of tt_archive: it counts the versions that arrive, but those for which `refusal`, an
    expression over `doc`, tells why not."""
    return f"""
import sys
count = 0
for line in sys.stdin.buffer:
    match line.split():
        case [b"delete", _, _]:
            print("no 4 NoDocument", flush=True)
        case [b"show", _, _]:
            print("none", flush=True)
        case [b"arrive", doc, _, size]:
            sys.stdin.buffer.read(int(size) + 1)
            refusal = {refusal}
            count += not refusal
            print(f"no 99 {{refusal}}" if refusal else f"ok {{count}}", flush=True)
"""


def changes_of(journal: bytes) -> list[tuple[int, int, bytes, bool]]:
    """The changes that a journal has, whether they came one by one or in batches."""
    file = io.BytesIO(journal)
    file.seek(len(HEADER))
    acts = (act for entry in entries_from(file, len(HEADER), "journal", texts=True) for act in entry.acts or (entry,))
    return [(act.doc, act.time, act.text, act.arrives) for act in acts if act.changes]


@functools.cache
def answers(what: str) -> bool:
    """Whether the program under test answers this."""
    script, reply, *words = _PROBES[what]
    with tempfile.TemporaryDirectory() as folder:
        return subprocess.run([*find_program(None), *words], cwd=folder, input=script, capture_output=True).stdout == reply


def needs(*what: str) -> Callable[[T], T]:
    """Skips a test where the program under test doesn't answer something."""
    missing = [each for each in what if not answers(each)]
    return unittest.skipIf(missing, f"the program doesn't answer {', '.join(missing)} yet")  # type: ignore[return-value]


class ArchiveCase(unittest.TestCase):
    """A test with a folder of its own and an archive in it."""

    def setUp(self) -> None:
        kept = tempfile.TemporaryDirectory()
        self.addCleanup(kept.cleanup)
        self.folder = Path(kept.name)
        self.archive = self.folder / "archive"
        self.tt("init", self.archive)

    def tt(self, *words: object, status: int = 0, **environment: str) -> Done:
        """Runs `tt` on the test's archive, within this process."""
        folder = [] if words[0] == "init" else ["-C", str(self.archive)]
        out, err = (io.TextIOWrapper(io.BytesIO(), "utf-8") for _ in range(2))
        with mock.patch.dict(os.environ, environment), redirect_stdout(out), redirect_stderr(err):
            ended = main([*folder, *map(str, words)])
        done = Done(*(stream.buffer.getvalue().decode(errors="surrogateescape") for stream in (out, err) if not stream.flush()))
        self.assertEqual(ended, status, done.stdout + done.stderr)
        return done

    def open(self, folder: Path | None = None) -> Collection:
        return Collection(folder or self.archive, find_program(None))

    def fill(self, versions: list[Version], folder: Path | None = None) -> None:
        """Feeds versions, and gives names to documents that have none."""
        with self.open(folder) as collection:
            for version in versions:
                doc = collection.names.give(version.name)
                line = (
                    commands.delete(doc, version.time) if version.text is None
                    else commands.arrive(doc, version.time, version.text.encode())
                )  # fmt: skip
                collection.send(collection.side_of(doc), line, [version], self._filled)
            collection.names.keep()
            collection.settle()

    def _filled(self, version: object, reply: object) -> None:
        self.assertIsInstance(reply, Ok, version)

    def texts_at(self, *times: int) -> list[dict[str, str]]:
        """By name, the texts of all documents alive at each time."""
        found = []
        with self.open() as collection:
            for time in times:
                texts = {}
                for number, name in collection.names.items():
                    reply = collection.ask_side(collection.side_of(number), commands.show(number, time))
                    if isinstance(reply, Text):
                        texts[name] = reply.text.decode()
                found.append(texts)
        return found


class FourCase(ArchiveCase):
    """A test over a collection of four archives; `one` is the archive beside it."""

    def setUp(self) -> None:
        super().setUp()
        self.one = self.archive
        self.archive = self.folder / "four"
        self.tt("-C", self.one, "shard", 4, self.archive, "--empty")
