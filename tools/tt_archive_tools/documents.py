"""The commands that tell of documents by their versions: log, diff and names.

They read the journals and the names beside an archive, also while something is at work there, and run no
program. Of an archive on another machine they know nothing.
"""

from __future__ import annotations

import argparse
import sys
from dataclasses import dataclass
from difflib import unified_diff
from typing import Sequence

from .collection import archives_in
from .errors import ToolError
from .journal import Entry, entries, history, text_of
from .names import FILE as NAMES
from .names import NameTable
from .program import Shard
from .times import parse_time, show_at, show_time
from .wording import counted
from .words import folded

#: In a difference so many lines stand around what differs.
_AROUND = 3


@dataclass(frozen=True)
class Document:
    """A document, and where the archive is that has it."""

    name: str
    number: int
    shard: Shard

    def history(self) -> list[Entry]:
        """Its versions and ends."""
        if not self.shard.is_here:
            raise ToolError(f"{self.name} is in {self.shard}, and its versions can be read only there")
        found = history(self.shard.folder, self.number)
        if not found:
            raise ToolError(f"{self.name} has no version")
        return found


def log(options: argparse.Namespace) -> None:
    found = _document(options).history()
    rows = [(show_time(entry.time), str(entry.size) if entry.arrives else "ends") for entry in found]
    if options.tsv:
        print("".join(f"{time}\t{size}\n" for time, size in rows), end="")
        return
    wide, most = (max(map(len, column)) for column in zip(("time", "bytes"), *rows))
    for time, size in (("time", "bytes"), *rows):
        print(f"{time.ljust(wide)}  {size.rjust(most)}")
    state = "a text now" if found[-1].arrives else f"no text since {show_time(found[-1].time)}"
    print(f"{counted(sum(entry.arrives for entry in found), 'version')}; {state}")


def diff(options: argparse.Namespace) -> None:
    """What the version that stands at a time changed, or all that changed from one time to it."""
    document, at = _document(options), parse_time(options.at)
    found = document.history()
    new = _standing(found, at)
    if new is None:
        raise ToolError(f"{document.name} has no text {show_at(at)}{_since(found, at)}")
    start = parse_time(options.start) if options.start else new.time - 1
    if start >= at:
        raise ToolError("the first time isn't before the second")
    old = _standing(found, start)
    heads = zip(_head(document.name, old), _head(document.name, new))
    for line in unified_diff(_lines(document, old), _lines(document, new), *(part for pair in heads for part in pair), n=_AROUND):
        written = line.encode("utf-8", "surrogateescape")
        sys.stdout.buffer.write(written if line.endswith("\n") else written + b"\n\\ No newline at end of file\n")


def names(options: argparse.Namespace) -> None:
    table = NameTable(options.archive / NAMES)
    held = _held(archives_in(options.archive))
    part = folded(options.part)
    found = sorted((name, number) for number, name in table.items() if part in folded(name))
    rows = [(*held.get(number, ("-", "-")), table.shown(number)) for _, number in found]
    if options.limit > 0:
        rows = rows[: options.limit]
    if options.tsv:
        print("".join("\t".join(row) + "\n" for row in rows), end="")
        return
    heads = ("versions", "until", "document")
    widths = [max(map(len, column)) for column in zip(heads, *rows)]
    for row in (heads, *rows) if rows else ():
        print("  ".join(cell.ljust(width) for cell, width in zip(row, widths)).rstrip())
    print(f"{len(found)} of {counted(len(table), 'name')}")


def why_gone(shard: Shard, doc: int, at: int) -> str:
    """Why a document has no text at a time, and which time has one; nothing where the archive isn't here."""
    return "" if not shard.is_here else _since(history(shard.folder, doc), at)


def _document(options: argparse.Namespace) -> Document:
    shards, table = archives_in(options.archive), NameTable(options.archive / NAMES)
    number = table.number(options.name)
    return Document(table.shown(number), number, shards[number % len(shards)])


def _standing(found: Sequence[Entry], at: int) -> Entry | None:
    """The last entry up to a time; None before the first."""
    return next((entry for entry in reversed(found) if entry.time <= at), None)


def _since(found: Sequence[Entry], at: int) -> str:
    ended = _standing(found, at)
    if ended:
        return f": it ended at {show_time(ended.time)}, and `--at {show_time(ended.time - 1)}` shows what it had before"
    first = next((entry for entry in found if entry.arrives), None)
    if first:
        return f": its first version begins at {show_time(first.time)}, which `--at {show_time(first.time)}` shows"
    return ": it never had one"


def _lines(document: Document, entry: Entry | None) -> list[str]:
    """The lines of a version's text, the last one with its line feed where it has one."""
    if entry is None or not entry.arrives:
        return []
    text = text_of(document.shard.folder, entry).decode("utf-8", "surrogateescape")
    lines = text.split("\n")
    last = lines.pop()
    return [f"{line}\n" for line in lines] + ([last] if last else [])


def _head(name: str, entry: Entry | None) -> tuple[str, str]:
    """The file and the time of a side of a difference, as `diff -u` has them: where there is no text, /dev/null."""
    return name if entry and entry.arrives else "/dev/null", show_time(entry.time) if entry else ""


def _held(shards: Sequence[Shard]) -> dict[int, tuple[str, str]]:
    """By number how many versions a document has, and until when it has a text."""
    versions: dict[int, int] = {}
    ends: dict[int, str] = {}
    for shard in shards:
        for entry in entries(shard.folder, texts=False) if shard.is_here else ():
            if entry.changes:
                versions[entry.doc] = versions.get(entry.doc, 0) + entry.arrives
                ends[entry.doc] = "now" if entry.arrives else show_time(entry.time)
    return {doc: (str(count), ends[doc]) for doc, count in versions.items()}
