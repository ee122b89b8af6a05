"""Bringing a copy up: what it lacks of the first one's journal is sent to its program, and the journals are compared.

A journal is read here, through `ssh`, or by whoever runs its program. The entries behind the copy's last one become
the commands that made them, so the copy's program takes them as it takes all changes.
"""

from __future__ import annotations

import hashlib
import os
import shlex
import subprocess
from contextlib import contextmanager
from typing import BinaryIO, Callable, Iterator, NamedTuple, Protocol

from . import commands
from .errors import ToolError
from .journal import HEADER, Entry, entries_from
from .program import JOURNAL, Shard

#: So many bytes of commands are sent at once, and so much of a journal is read.
_PIECE = 1 << 20


#: Sends commands to a program, and returns when it has answered all of them; how many there are, it is told.
Feed = Callable[[bytes, int], object]


class Extent(NamedTuple):
    """How many entries a journal has, and where the gate behind them stands."""

    entries: int
    gate: int


class Piece(NamedTuple):
    """Commands that make the next entries, how many they are, and where the gate behind these stands."""

    script: bytes
    count: int
    gate: int


class Journal(Protocol):
    """What is read of a journal whose program is at rest."""

    def extent(self) -> Extent: ...

    def digest(self, size: int) -> str:
        """The SHA-256 of so many bytes from the beginning."""

    def pieces(self, gate: int) -> Iterator[Piece]:
        """The entries from a gate on."""


class JournalFile:
    """The journal of a place that is here, or that `ssh` reaches."""

    def __init__(self, place: Shard) -> None:
        self._place = place

    def extent(self, before: Extent | None = None) -> Extent:
        """`before` is how far it was known to reach, so that only what is behind is read."""
        count, gate = before or (0, len(HEADER))
        for entry in self._entries(gate, texts=bool(self._place.login)):  # what comes through a pipe is read whole
            count, gate = count + 1, entry.after
        return Extent(count, gate)

    def digest(self, size: int) -> str:
        found = hashlib.sha256()
        with self._opened(0) as file:
            while size and (data := file.read(min(size, _PIECE))):
                found.update(data)
                size -= len(data)
        return found.hexdigest()

    def pieces(self, gate: int) -> Iterator[Piece]:
        lines: list[bytes] = []
        size = 0
        for entry in self._entries(gate, texts=True):
            lines.append(_command(entry))
            size += len(lines[-1])
            if size >= _PIECE:
                yield Piece(b"".join(lines), len(lines), entry.after)
                lines, size = [], 0
            gate = entry.after
        if lines:
            yield Piece(b"".join(lines), len(lines), gate)

    def _entries(self, gate: int, texts: bool) -> Iterator[Entry]:
        with self._opened(gate) as file:
            yield from entries_from(file, gate, str(self._place.folder / JOURNAL), texts)

    @contextmanager
    def _opened(self, at: int) -> Iterator[BinaryIO]:
        path = self._place.folder / JOURNAL
        if self._place.login:
            words = ["ssh", self._place.login, f"tail -c +{at + 1} {shlex.quote(str(path))}"]
            with subprocess.Popen(words, stdin=subprocess.DEVNULL, stdout=subprocess.PIPE) as there:
                assert there.stdout
                yield there.stdout  # type: ignore[misc]
                while there.stdout.read(_PIECE):
                    pass
            if there.returncode != 0:
                raise ToolError(f"{self._place}: its journal can't be read through ssh")
            return
        try:
            with open(path, "rb") as file:
                file.seek(at, os.SEEK_SET)
                yield file
        except OSError as error:
            raise ToolError(f"{path}: {error.strerror}") from None


class Gained(NamedTuple):
    """How many entries the first place and the copy lacked, and have now. One of the two numbers is 0."""

    first: int
    copy: int


def bring_up(first: Journal, copy: Journal, feed_first: Feed, feed_copy: Feed) -> Gained:
    """Sends the program of the shorter journal what it lacks. A copy is ahead where the first place was lost while both
    were fed: what it has more was sent, and not yet acknowledged. An error where neither is how the other begins."""
    one, two = first.extent(), copy.extent()
    common = min(one.gate, two.gate)
    if first.digest(common) != copy.digest(common):
        raise ToolError("its journal has other entries than the first one's, so it is no copy: delete its two files, and it is made anew")
    behind, ahead, feed = (copy, first, feed_copy) if two.gate <= one.gate else (first, copy, feed_first)
    for piece in ahead.pieces(common):
        feed(piece.script, piece.count)
    now, wanted = behind.extent(), ahead.extent()
    if now != wanted or first.digest(now.gate) != copy.digest(now.gate):
        raise ToolError("its journal came out another than the first one's, as it does where their programs aren't the same")
    return Gained(now.entries - one.entries, now.entries - two.entries)


def _command(entry: Entry) -> bytes:
    if entry.plan:
        return commands.plan(entry.plan.word, entry.plan.form)
    if entry.marks:
        return commands.mark()
    if entry.acts:
        return commands.batch([_command(act) for act in entry.acts])
    return commands.arrive(entry.doc, entry.time, entry.text) if entry.arrives else commands.delete(entry.doc, entry.time)
