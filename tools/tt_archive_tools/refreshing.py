"""The command that imports each source of an archive again: refresh.

The sources are read beside one another, and fed in one order of time, since an archive takes nothing
before its last time. So where one can't be read, nothing is sent: what the others have would make what
is new in it too late.
"""

from __future__ import annotations

import argparse
import shlex
import sys
from contextlib import ExitStack
from dataclasses import dataclass
from itertools import chain
from typing import Callable, Iterator

from .changes import Change, Notes
from .cli import parsed
from .collection import Collection
from .errors import InputError, ToolError
from .feeding import Feeder, Progress, feed_together
from .importing import source_of
from .ledger import FILE as LEDGER
from .ledger import Ledger
from .locks import Use
from .opening import archive_of
from .texts import Reading
from .wording import counted, one_line


@dataclass(frozen=True)
class _Stream:
    """A source, and what is wanted of it."""

    source: str
    feeder: Feeder
    changes: Iterator[Change]


def refresh(options: argparse.Namespace) -> None:
    progress = Progress(not options.quiet)

    def tell(line: str) -> None:
        progress.clear()
        print(one_line(line), file=sys.stderr)

    try:
        with ExitStack() as running, archive_of(options, Use.CHANGES) as collection:
            sources = Ledger(collection.folder / LEDGER).sources()
            if not sources:
                raise ToolError("nothing was imported here: `tt import` does so first")
            streams: list[_Stream] = []
            faults: list[str] = []
            for source, words in sources.items():
                try:
                    streams.append(_stream(source, words, collection, tell, progress, running))
                except InputError as fault:
                    faults.append(f"{source}: {fault}")
            for fault in faults:
                tell(f"tt: {fault}")
            if faults and not options.go_on:
                raise ToolError(
                    "nothing was sent, since what is new in a source that can't be read would be too late afterwards; "
                    "`tt refresh --go-on` leaves such sources out"
                )
            feed_together([(stream.feeder, stream.changes) for stream in streams])
    finally:
        progress.clear()
    _report(streams, options.quiet)
    refused = sum(stream.feeder.tally.refused.total() + stream.feeder.tally.late for stream in streams)
    if refused or faults:
        left = f"; {counted(len(faults), 'source')} can't be read" if faults else ""
        raise ToolError(f"{counted(refused, 'change')} refused{left}")


def _stream(
    source: str, words: str, collection: Collection, tell: Callable[[str], None], progress: Progress, running: ExitStack
) -> _Stream:
    """The source, read up to the first change that is wanted: so most that may be wrong with it shows."""
    if not words:
        raise InputError("imports.tsv", "it isn't noted how this was imported; `tt import` of it does so")
    options = parsed(["import", *shlex.split(words)])
    reading = Reading(options.charset, options.keep_html)
    # What was told of the source when it was imported isn't told each time.
    silent, spoken = Notes(lambda line: None, progress.show), Notes(tell)
    feeder = Feeder(collection, source, words, spoken, progress)
    changes = feeder.wanted(source_of(options, running).changes(reading, silent))
    first = next(changes, None)
    return _Stream(source, feeder, chain([] if first is None else [first], changes))


def _report(streams: list[_Stream], quiet: bool) -> None:
    """A line for each source. Where it is to be quiet, only those of which something was refused."""
    for stream in streams:
        tally = stream.feeder.tally
        line = f"{stream.source}: {counted(tally.arrived, 'version')} and {counted(tally.ended, 'deletion')} {stream.feeder.taken}"
        line += f", too late: {tally.late}" if tally.late else ""
        line += "".join(f", refused, {name}: {count}" for name, count in tally.refused.items())
        if tally.refused or tally.late or not quiet:
            print(one_line(line))
