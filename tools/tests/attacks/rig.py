"""What the attacks share: a run without faults to compare with, and what has to hold after one that was cut short."""

from __future__ import annotations

import copy
import os
import random
import re
import subprocess
from dataclasses import dataclass
from pathlib import Path
from typing import Callable, Sequence

from model import FOLLOW, HEADER, Archive, NotArchive, Outcome, packets, words_of
from scripts import MOST_SECONDS, Folder, Writer

#: Changes of each kind and questions. No text of it has a line that looks like a reply.
SCRIPT = b"""arrive 1 10 5
red a
arrive 2 12 8
red blue
plan red guarantee 1/1
find 11 red
arrive 1 20 9
blue blue
delete 2 25
arrive 3 25 3
red
plan red space 2/1 uniform
plan blue guarantee 3/2
find 21 red or blue
between 5 30 blue not a
verify
delete 9 30
show 2 15
arrive 2 40 8
red blue
"""
#: Batches, some of which are refused: by the archive as a whole, for an item, and for an act. They end amid one.
BATCH_SCRIPT = b"""batch 1
delete 1 10
format 2
batch 3
arrive 1 30 5
red a

# skipped
arrive 2 30 8
red blue
arrive 3 31 3
red
find 30 red
batch 2
arrive 4 32 3
red
verify
plan red guarantee 1/1
batch 2
delete 3 35
delete 3 36
batch 4
delete 3 35
arrive 2 36 0

arrive 1 36 9
blue blue
arrive 3 37 4
blue
plan blue space 2/1 uniform
batch 1
batch 1
between 5 40 blue or red
verify
batch 2
delete 1 40
"""
#: Changes of each kind beside plans that are written in steps: the first takes 18 pages, and so three stints.
JOB_SCRIPT = b"""begin red guarantee 1/1
begin red guarantee 2/1
# skipped
find 15 red
plan blue guarantee 1/1
arrive 2 28 8
red blue
begin blue guarantee 3/2
begin red guarantee 2/1
delete 10 29
begin red guarantee 1/1
find 15 red
batch 2
arrive 1 30 3
red
delete 2 31
begin red guarantee 4/1
verify
find 28 red or blue
begin red guarantee 5/4
"""
#: A script that is broken before such a plan is at its end.
BROKEN_SCRIPT = b"begin red guarantee 1/1\narrive 2 28 8\nred blue\nplan blue guarantee 1/1\narrive x\n"
#: A sample by the greatest seed. One of its words is unknown then, and one has nothing sealed.
SAMPLE = b"--generate 9999999999999999999 --count 3\n"
#: What is asked and changed in the run after.
NEXT_SCRIPT = b"""verify
show 1 15
show 2 15
show 3 30
find 11 red
find 13 red or blue
find 22 blue
between 0 100 red or blue
certificate red
certificate blue
arrive 4 50 28
red, and blue, and red again
arrive 1 60 3
red
format 2
batch 3
arrive 2 60 4
blue
arrive 3 61 8
red blue
delete 4 62
plan red guarantee 1/1
plan blue space 3/1 since 20
delete 1 70
find 61 red
find 55 red
begin red guarantee 3/2
between 10 80 blue or red
begin blue guarantee 1/1
certificate red
verify
begin red guarantee 1/1
"""
#: The same behind a sample.
NEXT_OF_SAMPLE = b"""verify
show 7 60
find 150 w1 or w3
between 0 200 w2 or w4
certificate w3
arrive 7 100000 5
w1 w2
delete 7 100060
plan w2 guarantee 1/1
plan w3 space 2/1 uniform
find 100000 w2 and not w5
verify
"""
#: Behind changes and plans with a guarantee: the mark, batches, a text without words, and plans of the other kinds.
KINDS_SCRIPT = b"""format 2
batch 3
arrive 1 5 4
Red!
delete 2 5
arrive 7 6 0

plan red space 2/1 uniform
plan blue space 3/1 since 1
batch 1
arrive 2 8 10
blue caf\xc3\xa9
plan red guarantee 3/2
arrive 4294967295 9 4
\xf0\x9f\x8c\x89
"""
#: Behind a word in many documents: a plan of many pages, one that replaces a plan, and a change.
STEPS_SCRIPT = b"plan red guarantee 1/1\nplan blue space 2/1 uniform\ndelete 10 28\n"
LONG_TEXT = b"arrive 9 10 300000\n" + b"red " + b"." * 299_996 + b"\n"
#: Exports of all entries, and of those from one on that stands amid the others.
EXPORT, EXPORT_REST = b"--export 1\n", b"--export 8\n"
STREAMS = {"stdin": subprocess.PIPE, "stdout": subprocess.PIPE, "stderr": subprocess.PIPE}
DISK_FAULT = Outcome(b"", "tt_archive: disk fault\n", 4)
AUDIT_FAULT = Outcome(b"", "tt_verify: disk fault\n", 4)
NO_LOCKS = Outcome(b"", "tt_archive: this folder's file system has no locks\n", 4)
SOURCE_FAULT = Outcome(b"", "tt_archive: source fault\n", 5)
SINK_FAULT = Outcome(b"", "tt_archive: sink fault\n", 6)
NO_MEMORY = Outcome(b"", "tt_archive: no memory\n", 12)


def is_sample(script: bytes) -> bool:
    return words_of(script)[:1] == ["--generate"]


def is_export(script: bytes) -> bool:
    return words_of(script)[:1] == ["--export"]


def is_follow(script: bytes) -> bool:
    return script.startswith(FOLLOW)


class Wrong(Exception):
    """Something isn't as it is to be."""


def expect(holds: bool, what: str) -> None:
    if not holds:
        raise Wrong(what)


def ends(command: list[str], folder: Path, **streams: object) -> Outcome:
    """How a command ends in a folder."""
    given = {"stdin": subprocess.DEVNULL, "stdout": subprocess.PIPE, "stderr": subprocess.PIPE, **streams}
    ended = subprocess.run(command, cwd=folder, timeout=MOST_SECONDS, **given)
    return Outcome(ended.stdout or b"", (ended.stderr or b"").decode(errors="replace"), ended.returncode)


def acknowledged(shown: bytes) -> int:
    """How many entries the replies that are whole acknowledge."""
    replies = re.findall(rb"^(?:ok|plan|done|took) (\d+)\b.*\n", shown, re.MULTILINE)
    return int(replies[-1]) if replies else 0


@dataclass(frozen=True)
class Whole:
    """A run of a script without faults, in a folder that is filled before, which went as the model says."""

    fill: Callable[[Folder], None]
    script: bytes
    outcome: Outcome
    entries: list[bytes]
    entries_before: int
    files_before: list[bytes]

    @classmethod
    def of(cls, program: str, fill: Callable[[Folder], None], script: bytes = SCRIPT) -> Whole:
        with Folder(program) as folder:
            fill(folder)
            before, files, again = len(folder.archive.entries), folder.files(), _filler(folder)
            difference = folder.difference(script)
            expect(not difference, f"a run without faults: {difference}")
            return cls(again, script, folder.outcome, folder.archive.entries, before, files)

    @classmethod
    def random(cls, program: str, number: int, *, follows: bool = False) -> Whole:
        """A run of a random script on an archive that another one made. It may be broken. Or the archive follows one that goes on by this
        script."""
        writer = Writer(random.Random(f"whole {number}"))
        before, script = writer.first_script() + writer.script(12), writer.script(20)

        def fill(folder: Folder, scripts: Sequence[bytes] = (before,)) -> None:
            for each in scripts:
                expect(not (difference := folder.difference(each)), f"the script {each!r}: {difference}")

        return cls.of(program, fill, following(program, lambda leader: fill(leader, (before, script))) if follows else script)

    @property
    def shown(self) -> bytes:
        return self.outcome.shown

    @property
    def reads(self) -> bool:
        """Whether such a run reads its input."""
        return not words_of(self.script) or is_follow(self.script)

    def check_cut(self, folder: Folder, outcome: Outcome, allowed: list[Outcome], what: str) -> None:
        """What holds after a run of the script that may have been cut short: what it showed is a front of the replies, its end is one
        of these, and the next run has each entry that was acknowledged, few more, and goes on as the model says."""
        expect(self.shown.startswith(outcome.shown), f"{what}: shows {outcome.shown!r}, and not a front of {self.shown!r}")
        ends_so = outcome == self.outcome or any((outcome.status, outcome.line) == (it.status, it.line) for it in allowed)
        expect(ends_so, f"{what}: ends with {outcome.status} and {outcome.line!r}, having shown {outcome.shown!r}")
        expect(self.reads or folder.pulled == 0, f"{what}: pulls {folder.pulled} bytes")
        expect(not is_export(self.script) or self.is_spared(folder), f"{what}: an export changes a file")
        self.check_next(folder, outcome.shown, what)

    def is_spared(self, folder: Folder) -> bool:
        """Whether no byte is changed, but that a journal that is new may be begun."""
        journal, pages = folder.files()
        return [journal, pages] == self.files_before or (not self.entries and (HEADER + b"\0").startswith(journal) and not pages)

    def counts(self, shown: bytes) -> tuple[int, int]:
        """How many entries there are at least and at most where this was shown. (A sample acknowledges all at once, by its lines; an
        export finds and leaves the same.)"""
        if not self.reads:
            return len(self.entries) if shown else self.entries_before, len(self.entries)
        count = max(self.entries_before, acknowledged(shown))
        return count, count + 1

    def check_next(self, folder: Folder, shown: bytes, what: str) -> None:
        """The journal has as many of the entries as it is to have where this was shown, and the next runs go on as the model says."""
        journal, pages = folder.files()
        try:
            folder.archive = Archive.loaded(journal, len(pages))
        except NotArchive as place:
            raise Wrong(f"{what}: the journal is no archive's at {place}") from None
        entries = folder.archive.entries
        expect(entries == self.entries[: len(entries)], f"{what}: the journal has other entries: {[it.hex() for it in entries]}")
        least, most = self.counts(shown)
        expect(least <= len(entries) <= most, f"{what}: {least} to {most} entries are to be there, and the journal has {len(entries)}")
        folder.was_cut = True
        for script in [*filter(words_of, [self.script]), NEXT_OF_SAMPLE if is_sample(self.script) else NEXT_SCRIPT]:
            difference = folder.difference(script)
            expect(not difference, f"{what}: in the next run: {difference}")
            is_left = folder.outcome.status != 10 or folder.files() == [journal, pages]
            expect(is_left, f"{what}: a sample that is refused changes a file")
            is_level = not is_follow(script) or folder.archive.entries == self.entries
            expect(is_level, f"{what}: given the packets again, a follower has other entries than without a fault")


def _filler(folder: Folder) -> Callable[[Folder], None]:
    """What fills a folder as this one is filled now."""
    files = {path.name: path.read_bytes() for path in (folder.journal, folder.pages) if path.exists()}
    archive = copy.deepcopy(folder.archive)

    def fill(other: Folder) -> None:
        for name, content in files.items():
            (other.path / name).write_bytes(content)
        other.archive = copy.deepcopy(archive)

    return fill


def nothing(_: Folder) -> None:
    """A new folder."""


def some(folder: Folder) -> None:
    """An archive with texts and two plans, one of which stands in place of an earlier one."""
    changes, plans = b"arrive 1 1 3\nred\narrive 2 3 4\nblue\ndelete 1 4\n", [b"red guarantee 1/1", b"blue guarantee 1/1", b"red guarantee 2/1"]
    difference = folder.difference(changes + b"".join(b"plan %b\n" % it for it in plans))
    expect(not difference, f"an archive to begin with: {difference}")


def many(folder: Folder) -> None:
    """The same, with a word in many documents."""
    some(folder)
    arrivals = b"".join(b"arrive %d %d 3\nred\n" % (at, at) for at in range(10, 28))
    difference = folder.difference(b"format 2\nbatch 18\n" + arrivals)
    expect(not difference, f"an archive to begin with: {difference}")


def left(folder: Folder) -> None:
    """The same, where a plan was begun and not ended: its first pages are written, and nothing tells so."""
    many(folder)
    pages = folder.pages.stat().st_size
    difference = folder.difference(b"begin red guarantee 1/1\nfind 15 red\nverify\narrive x\n")
    expect(not difference, f"an archive to begin with: {difference}")
    expect(folder.pages.stat().st_size > pages, "a plan that was begun and not ended leaves no byte")


def kinds(folder: Folder) -> None:
    """An archive with entries of each kind, texts without words and replaced plans among them."""
    some(folder)
    expect(not (difference := folder.difference(KINDS_SCRIPT)), f"an archive to begin with: {difference}")
    expect(len(folder.archive.entries) == 13, f"an archive with entries of each kind has {len(folder.archive.entries)}")


def long_kinds(folder: Folder) -> None:
    """The same with an entry behind it that is longer than what a pipe holds, and another."""
    kinds(folder)
    expect(not (difference := folder.difference(LONG_TEXT + b"delete 9 11\n")), f"an archive to begin with: {difference}")


def steps(folder: Folder) -> None:
    """A word in many documents, with a plan of many pages."""
    many(folder)
    expect(not (difference := folder.difference(STEPS_SCRIPT)), f"an archive to begin with: {difference}")


def following(program: str, leader: Callable[[Folder], None], first: int = 1) -> bytes:
    """The word of a follower, and the packets of an archive that is filled so."""
    with Folder(program) as folder:
        leader(folder)
        return FOLLOW + packets(folder.archive.entries, first)


def follows(program: str) -> list[tuple[Callable[[Folder], None], bytes]]:
    """Archives to begin with, each with the packets of one that it follows: a new one, and one that has some of the entries."""
    return [(nothing, following(program, kinds)), (some, following(program, steps, 5))]


#: Archives to begin with, each with a script, that runs are cut short of.
RUNS: list[tuple[Callable[[Folder], None], bytes]] = [
    *((nothing, SCRIPT), (some, SCRIPT), (some, BATCH_SCRIPT), (nothing, SAMPLE)),
    *((left, JOB_SCRIPT), (many, BROKEN_SCRIPT)),
]
#: A sample that is refused.
REFUSED = (left, SAMPLE)
EXPORTS: list[tuple[Callable[[Folder], None], bytes]] = [(nothing, EXPORT), (kinds, EXPORT), (kinds, EXPORT_REST)]


def has_tracer() -> bool:
    """Whether calls of the system can be made to fail by strace."""
    try:
        return subprocess.run(["strace", "-qq", "-o", os.devnull, "true"], capture_output=True).returncode == 0
    except FileNotFoundError:
        return False
