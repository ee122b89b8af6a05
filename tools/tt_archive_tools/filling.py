"""Filling an archive: it is made empty, fed from a source, or split."""

from __future__ import annotations

import argparse
import sys

from .changes import Notes
from .collection import Collection, make_archive
from .errors import ToolError
from .feeding import Feeder, Progress
from .importing import again
from .locks import Use
from .opening import archive_of, claim_of
from .program import find_program
from .sources import Source
from .texts import Reading
from .times import show_time
from .wording import counted, one_line


def init(options: argparse.Namespace) -> None:
    make_archive(options.folder, find_program(options.program), claim_of(options), options.format)
    print(f"an archive is in {options.folder}")


def shard(options: argparse.Namespace) -> None:
    from .shards import make_shards, split

    command, claim = find_program(options.program), claim_of(options)
    if options.empty:
        make_shards(options.into, options.count)
        with Collection(options.into, command, claim) as shards:
            _mark(shards, options)
        print(f"{counted(options.count, 'empty archive')}, in {options.into}")
        return
    with archive_of(options, Use.CHANGES) as archive:
        if len(archive.shards) > 1:
            raise ToolError(f"{options.archive} is split already")
        make_shards(options.into, options.count)
        with Collection(options.into, command, claim) as shards:
            _mark(shards, options)
            entries = split(archive, shards)
    print(f"{entries} versions and deletions are in {counted(options.count, 'archive')} in {options.into}")


def _mark(shards: Collection, options: argparse.Namespace) -> None:
    if options.format != 1:
        shards.mark()


def import_from(source: Source, options: argparse.Namespace) -> None:
    """Feeds the archive of a command from a source, or tries that, and tells how it went."""
    progress = Progress(not options.quiet)

    def tell(line: str) -> None:
        progress.clear()
        print(one_line(line), file=sys.stderr)

    notes = Notes(tell, progress.show, options.verbose)
    reading = Reading(options.charset, options.keep_html)
    try:
        with archive_of(options, Use.ASKS if options.dry_run else Use.CHANGES) as collection:
            feeder = _feeder(options)(collection, source.identity, again(options), notes, progress)
            feeder.feed(source.changes(reading, notes))
    finally:
        progress.clear()
    _report(feeder, notes)
    if feeder.tally.refused_all:
        raise ToolError("all is refused, and nothing of it is in the archive")


def _feeder(options: argparse.Namespace) -> type[Feeder]:
    if not options.dry_run:
        return Feeder
    from .trying import Trier  # loaded where it is needed

    return Trier


def _report(feeder: Feeder, notes: Notes) -> None:
    tally = feeder.tally
    print(f"{counted(tally.arrived, 'version')} and {counted(tally.ended, 'deletion')} {feeder.taken}")
    for line in feeder.prospect():
        print(one_line(line))
    if tally.before:
        print(f"imported before, until {show_time(tally.before_until)}: {counted(tally.before, 'change')}")
    if tally.late:
        why = "since an archive takes nothing before its last time"
        print(f"of these new in the source, and too late, {why}: {tally.late}")
    for name, count in tally.refused.items():
        print(f"{feeder.refused}, {name}: {count}")
    for kind, count in notes.counts.items():
        if not kind.startswith("refused: "):
            print(f"{kind}: {count}")
