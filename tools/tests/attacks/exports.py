"""Exports in hostile use: on journals and Pages that were damaged, to readers who go away, killed, and behind a program whose last
writes were never synced. (The other parts try exports as they try scripts.)"""

from __future__ import annotations

import os
import random
import subprocess
import time
from collections import Counter
from hashlib import sha256
from typing import Iterator

from model import HEADER, PAGE, Archive, Choice, NotArchive, Outcome, packets, read_journal, spell_journal, words_of
from model.journal import FLAT, Place, Plan, read_entry, sublist
from scripts import Folder, altered

from attacks.damage import FIRST_SUBLIST, FORMATS_SCRIPT, PLAN_GATE, not_archive
from attacks.lost import FILLS, RECORDER, Disk, Record
from attacks.odd import limit_files
from attacks.rig import BATCH_SCRIPT, DISK_FAULT, EXPORT, EXPORT_REST, SCRIPT, SINK_FAULT, STREAMS, Whole, expect, kinds, long_kinds, nothing, some

MOST_SECONDS = 0.004


# -- damage


def damage_exports(program: str, audit: str, *, is_all: bool) -> str:
    """An export of damaged files shows the packets of the archive that the journal still spells, or nothing, and changes no byte."""
    told = Counter[str]()
    with Folder(program) as folder:
        expect(not (difference := folder.difference(FORMATS_SCRIPT)), f"the archive of docs/formats.md: {difference}")
        journal, pages = folder.files()
        for what, spelled in _damaged(journal, is_all):
            told[_export_damaged(folder, what, spelled, pages)] += 1
        # The digests of Pages are no export's business; but where a place lies outside, it is no archive.
        whole = folder.archive.run(EXPORT, Choice([], b""))
        folder.journal.write_bytes(journal)
        for place in range(FIRST_SUBLIST):
            folder.pages.write_bytes(pages[:place] + bytes([pages[place] ^ 0x40]) + pages[place + 1 :])
            _expect_export(folder, whole, f"the byte {place} of the first sublist is another")
        for length in [0, 1, FIRST_SUBLIST - 1, PAGE, len(pages) - 1]:
            folder.pages.write_bytes(pages[:length])
            _expect_export(folder, not_archive(PLAN_GATE), f"Pages are cut to {length} bytes")
    _export_flat(program)
    return f"{told.total()} damaged journals, {told['refused']} of them refused, and {FIRST_SUBLIST + 5} damaged Pages, each exported"


def _damaged(journal: bytes, is_all: bool) -> Iterator[tuple[str, bytes]]:
    """A journal with each byte altered in some ways, cut to each length, and altered at random."""
    chance = random.Random(7)
    for place, byte in enumerate(journal):
        others = {byte ^ 1, byte ^ 0x80, 0, 1, 2, 4, 0xA5, 0xFF} - {byte} if is_all else {chance.choice([byte ^ 1, byte ^ 0x80, 0xA5 if byte != 0xA5 else 0])}
        for other in others:
            yield f"the byte {place} is {other:02x}", journal[:place] + bytes([other]) + journal[place + 1 :]
    for length in range(0, len(journal), 1 if is_all else 5):
        yield f"the journal is cut to {length} bytes", journal[:length]
    for _ in range(1_000 if is_all else 50):
        yield "the journal is altered", altered(chance, journal)


def _export_damaged(folder: Folder, what: str, journal: bytes, pages: bytes) -> str:
    """Exports what a damaged journal may still spell, beside Pages; tells whether it is refused."""
    folder.journal.write_bytes(journal)
    folder.pages.write_bytes(pages)
    try:
        wanted = Archive.loaded(journal, len(pages)).run(EXPORT, Choice([], b""))
    except NotArchive as place:
        wanted = not_archive(int(str(place)))
    _expect_export(folder, wanted, f"{what}: {journal.hex()}")
    return "refused" if wanted.status else "loaded"


def _expect_export(folder: Folder, wanted: Outcome, what: str, script: bytes = EXPORT) -> None:
    journal, pages = folder.files()
    outcome = folder.run(script)
    expect(outcome == wanted, f"an export, where {what}: {outcome}, and not {wanted}")
    left = HEADER + b"\0" if len(journal) <= len(HEADER) + 1 else journal
    expect(folder.files() == [left, pages] and folder.pulled == 0, f"an export, where {what}, changes a file or pulls")


def _export_flat(program: str) -> None:
    """Plans with flat sublists, as older programs stored them."""
    with Folder(program) as folder:
        kinds(folder)
        entries, pages, archive = [], b"", Archive()
        for entry in folder.archive.entries:
            plan = read_entry(entry)
            if isinstance(plan, Plan):
                postings, places = folder.archive.postings(plan.key, 0, plan.horizon), []
                for segment in plan.segments():
                    content = sublist(postings, *segment, FLAT)
                    places.append(Place(segment[0], len(pages) // PAGE, len(content), sha256(content).digest()))
                    pages += content + bytes(-len(content) % PAGE)
                entry = Plan(FLAT, plan.kind, plan.since, plan.factor, plan.horizon, plan.key, tuple(places)).entry()
            entries.append(entry)
        folder.journal.write_bytes(spell_journal(entries))
        folder.pages.write_bytes(pages)
        folder.archive = archive = Archive.loaded(spell_journal(entries), len(pages))
        for script in (EXPORT, EXPORT_REST, b"verify\n"):
            wanted = archive.run(script, Choice([], b""))
            outcome = folder.run(script)
            expect(outcome == wanted, f"{script!r} of an archive with flat sublists: {outcome}, and not {wanted}")


# -- what cuts an export short


def cut_exports(program: str, audit: str, *, is_all: bool) -> str:
    """Readers go away, exports are killed at random moments, and files may not grow: what was shown is a front of the packets, and no
    byte is changed."""
    chance, count, ends = random.Random(7), 600 if is_all else 60, Counter[str]()
    with Folder(program) as folder:
        long_kinds(folder)
        for number in range(count):
            ends[_cut_export(folder, chance)] += 1
        _fill_pipe(folder)
        expect(not (difference := folder.difference(EXPORT)), f"an export behind {count} that were cut short: {difference}")
        expect(not (difference := folder.difference(b"verify\nfind 12 red\n")), f"a run behind exports: {difference}")
    expect(ends["killed"] > 0 and ends["left"] > 0, f"exports that were cut short end so: {ends}")
    limits = _limit_exports(program, is_all)
    return f"{count} exports cut short, {ends['killed']} by a death and {ends['left']} by who reads; and {limits} limits of a file's size"


def _cut_export(folder: Folder, chance: random.Random) -> str:
    """Reads some bytes of an export, and then goes away or kills it. (Some are killed in their load.)"""
    left, first = folder.files(), chance.randint(1, len(folder.archive.entries) - 1)
    whole = packets(folder.archive.entries, first)
    wanted, kills = chance.choice([0, 0, chance.randrange(len(whole))]), chance.randrange(2) == 0
    with subprocess.Popen([folder.program, "--export", str(first)], cwd=folder.path, bufsize=0, **STREAMS) as process:
        shown = b""
        while len(shown) < wanted:
            shown += os.read(process.stdout.fileno(), wanted - len(shown))
        time.sleep(MOST_SECONDS * chance.random())
        if kills:
            process.kill()
            shown += process.stdout.read()
        process.stdout.close()
        status, line = process.wait(), process.stderr.read().decode()
    what = f"an export from {first}, {'killed' if kills else 'whose reader goes away'} behind {len(shown)} bytes"
    expect(whole.startswith(shown), f"{what}: what it shows is no front of the packets")
    expect(folder.files() == left, f"{what}: a file is changed")
    cut = (-9, "") if kills else (SINK_FAULT.status, SINK_FAULT.line)
    is_whole = (status, line) == (0, "") and (not kills or shown == whole)  # (what is left may have room in the pipe)
    expect(is_whole or (status, line) == cut, f"{what}: ends with {status} and {line!r}")
    return "whole" if is_whole else "killed" if kills else "left"


def _fill_pipe(folder: Folder) -> None:
    """Shows an export to a pipe that doesn't wait, and that nobody reads before the export is at its end."""
    (reader, writer), left = os.pipe(), folder.files()
    os.set_blocking(writer, False)
    outcome = folder.run_as([folder.program], EXPORT, stdout=writer)
    os.close(writer)
    with open(reader, "rb") as pipe:
        shown = pipe.read()
    is_front = shown and packets(folder.archive.entries, 1).startswith(shown)
    expect(outcome == SINK_FAULT and is_front and folder.files() == left, f"an export to a pipe that is full: {outcome}, having shown {len(shown)} bytes")


def _limit_exports(program: str, is_all: bool) -> int:
    """No file may grow beyond a size: neither a journal that is new, nor the file that an export is to write."""
    count, end = 0, len(HEADER) + 1
    wholes = {fill: Whole.of(program, fill, EXPORT) for fill in (nothing, kinds)}
    length = len(wholes[kinds].shown)
    for fill, limit in [*((nothing, it) for it in range(end + 1)), *((kinds, it) for it in range(0, length + 1, 1 if is_all else 29))]:
        with Folder(program) as folder:
            wholes[fill].fill(folder)
            with open(folder.path / "shown", "wb") as shown:
                outcome = folder.run_as([program], EXPORT, stdout=shown, preexec_fn=lambda: limit_files(limit), restore_signals=False)
            outcome = Outcome((folder.path / "shown").read_bytes(), outcome.line, outcome.status)
            what = f"an export of {'a new archive' if fill is nothing else 'an archive'} where files have at most {limit} bytes"
            expect(outcome.status != 0 or limit >= (end if fill is nothing else length), f"{what}: {outcome}")
            wholes[fill].check_cut(folder, outcome, [DISK_FAULT if fill is nothing else SINK_FAULT], what)
            count += 1
    return count


# -- power failures


def lose_before_exports(program: str, audit: str, *, is_all: bool) -> str:
    """A program dies at a sync, so that its last writes may be lost. An export follows, and behind each of its calls the power fails: once
    it has shown a byte, each pair of files that may be left has all entries."""
    chance, exports, images = random.Random(7), 0, 0
    for fill, script in [(nothing, SCRIPT), (some, BATCH_SCRIPT)]:
        for nth in range(1, 200):
            with Folder(program) as folder:
                fill(folder)
                files = [folder.journal, folder.pages]
                record = Record({path.name: Disk(path.read_bytes() if path.exists() else None) for path in files})
                outcome = folder.run_as([*RECORDER, "-e", f"inject=fdatasync:signal=KILL:when={nth}", program], script)
                if outcome.status == 0 or outcome.status == 7:
                    break
                for _ in record.moments((folder.path / "calls").read_text()):
                    pass
                images += _lose_export(folder, record.disks, chance, f"an export behind a death at sync {nth} of {script!r}", is_all)
                exports += 1
        expect(outcome.status in (0, 7) and nth > 1, f"a script is never brought to its end: {outcome}")
    return f"{images} journals that power failures in {exports} exports may leave, each behind a program that died at a sync"


def _lose_export(folder: Folder, disks: dict[str, Disk], chance: random.Random, what: str, is_all: bool) -> int:
    """Exports an archive with writes that weren't synced; tells how many journals were looked at."""
    journal, pages = folder.files()
    archive, images = Archive.loaded(journal, len(pages)), 0
    outcome = folder.run_as([*RECORDER, folder.program], EXPORT)
    expect(outcome == archive.run(EXPORT, Choice([], b"")), f"{what}: {outcome}")
    record = Record(disks)
    for _ in record.moments((folder.path / "calls").read_text()):
        expect(not record.disks["archive.pages"].pending or not record.shown, f"{what}: it has shown {record.shown!r}, and Pages aren't synced")
        for kind in 2 * FILLS if is_all else FILLS:
            left = [entry for _, entry in read_journal(record.disks["archive.journal"].left(kind, chance))]
            allowed = [archive.entries] if record.shown else [archive.entries, archive.entries[:-1]]
            expect(left in allowed, f"{what}, and a power failure when {record.shown!r} is shown, leave {[it.hex() for it in left]}")
            images += 1
    expect(record.shown == outcome.shown, f"{what}: the record hasn't what is shown")
    return images
