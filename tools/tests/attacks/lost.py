"""Power failures: the calls that the program makes on its files are recorded, and after each of them files are made as the disk model
allows (docs/model.md, `MayLeave`). What was synced is there. Each byte that was written since may be any, and a file may end anywhere
between where it ended then and where the furthest of these writes ends."""

from __future__ import annotations

import random
import re
from dataclasses import dataclass, field
from typing import Iterator

from model import OPEN, Outcome, read_journal
from scripts import Folder

from attacks.rig import RUNS, Whole, expect, follows

NAMES = [".", "archive.journal", "archive.pages"]
CALLS = "openat,fcntl,pwrite64,ftruncate,fsync,fdatasync,write"
FILLS = ["old", "last", "torn", "open", "any"]
RECORDER = ["strace", "-f", "-qq", "-xx", "-s", "1000000", "-o", "calls", "-e", f"trace={CALLS}"]
CALL = re.compile(r"^\d+ +(\w+)\((.*)\) += (\d+)$", re.MULTILINE)


@dataclass
class Disk:
    """A file as of its last sync, and what was written to it since. There may be no such file."""

    stable: bytes | None
    pending: list[tuple[int, bytes]] = field(default_factory=list)

    def length(self) -> int:
        return max([len(self.stable or b""), *(at + len(written) for at, written in self.pending)])

    def sync(self) -> None:
        self.stable = self.left("new", random.Random(0))
        self.pending = []

    def left(self, fill: str, chance: random.Random) -> bytes:
        """What a power failure leaves. The bytes written since the sync are as they were, or as they were written (all, those of the last
        write, or the first ones of each), or those of open gates, or any."""
        whole = self.stable or b""
        old = whole = whole + bytes(self.length() - len(whole))
        for number, (at, written) in enumerate(self.pending, 1):
            size, is_last = len(written), number == len(self.pending)
            torn = chance.randrange(size + 1)
            was = old[at : at + size]
            left = {
                "old": was,
                "new": written,
                "last": written if is_last else was,
                "torn": written[:torn] + was[torn:],
                "open": bytes([OPEN]) * size,
                "any": chance.randbytes(size),
            }
            whole = whole[:at] + left[fill] + whole[at + size :]
        shortest = len(self.stable or b"")
        return whole if fill in ("new", "last") else whole[: chance.choice([shortest, len(whole), chance.randint(shortest, len(whole))])]


def _bytes_of(spelled: str) -> bytes:
    """The bytes of a text of strace, each of which is spelled in base 16."""
    return bytes.fromhex(spelled.strip('"').replace("\\x", ""))


@dataclass
class Record:
    """What the calls of a run have made of the files and of standard output."""

    disks: dict[str, Disk]
    shown: bytes = b""
    named: dict[str, str] = field(default_factory=dict)  #: the name of the file of each handle

    def moments(self, calls: str) -> Iterator[None]:
        """Makes one call after another; stops behind each that makes, changes or syncs a file, and behind what is shown."""
        for name, words, result in CALL.findall(calls):
            handle, *rest = words.split(", ")
            file = self.named.get(handle)
            if name == "openat" and (path := _bytes_of(rest[0]).decode()) in NAMES:
                self.named[result] = path
            elif name == "fcntl" and file:
                self.named[result] = file
            elif name == "write" and handle == "1":
                self.shown += _bytes_of(rest[0])[: int(result)]
            elif name == "pwrite64" and file:
                self.disks[file].pending.append((int(rest[2]), _bytes_of(rest[0])[: int(result)]))
            elif name == "ftruncate" and file:
                end = self.disks[file].length()
                self.disks[file].pending.append((end, bytes(max(0, int(rest[0]) - end))))
            elif name == "fdatasync" and file:
                self.disks[file].sync()
            elif name == "fsync" and file == ".":
                for disk in self.disks.values():
                    disk.stable = disk.stable or b""
            else:
                continue
            yield


def lose_writes(program: str, audit: str, *, is_all: bool) -> str:
    """The power fails behind each call of some runs, and of some of what is left once more, behind each call of the load that follows."""
    chance, moments, images, again = random.Random(7), 0, 0, 0
    runs = [Whole.of(program, *run) for run in [*RUNS, *follows(program)]]
    scripts = [*runs, *(Whole.random(program, number) for number in range(10 if is_all else 3))]
    scripts += [Whole.random(program, number, follows=True) for number in range(10 if is_all else 1)]
    for whole in scripts:
        with Folder(program) as first:
            whole.fill(first)
            files = [first.journal, first.pages]
            record = Record({path.name: Disk(path.read_bytes() if path.exists() else None) for path in files})
            outcome = first.run_as([*RECORDER, program], whole.script)
            expect(outcome == whole.outcome, f"a recorded run: {outcome}, and not {whole.outcome}")
            for _ in record.moments((first.path / "calls").read_text()):
                moments += 1
                for kind in 2 * FILLS if is_all else FILLS:
                    _check_failure(program, whole, record, kind, chance)
                    images += 1
                    again += 0 if images % (7 if is_all else 300) else _fail_again(program, whole, record, kind, chance)
            is_read = [disk.left("new", chance) for disk in record.disks.values()] == [path.read_bytes() for path in files]
            expect(record.shown == whole.shown and is_read, "the record has not what the files and the replies are")
    told = f"{images} pairs of files that power failures behind {moments} calls of {len(scripts)} runs may leave"
    return f"{told}, and {again} that others behind the calls of a load may leave of them"


def _fail(folder: Folder, record: Record, kind: str, chance: random.Random) -> None:
    """Puts what a power failure leaves into a folder."""
    for name, disk in record.disks.items():
        if disk.stable is not None or chance.randrange(2):
            (folder.path / name).write_bytes(disk.left(kind, chance))


def _fail_again(program: str, whole: Whole, record: Record, kind: str, chance: random.Random) -> int:
    """The power fails a second time, behind each call of the load that follows: the same entries are left. Tells how often it fails."""
    with Folder(program) as folder:
        _fail(folder, record, kind, chance)
        entries = read_journal(folder.files()[0])
        again = Record({path.name: Disk(path.read_bytes() if path.exists() else None) for path in (folder.journal, folder.pages)}, record.shown)
        outcome = folder.run_as([*RECORDER, program], b"")
        expect(outcome == Outcome(b"", "", 0), f"a load behind a power failure: {outcome}")
        for number, _ in enumerate(again.moments((folder.path / "calls").read_text()), 1):
            for second in (kind, chance.choice(FILLS)):
                left = read_journal(again.disks["archive.journal"].left(second, chance))
                expect(left == entries, f"a power failure within the load behind another leaves {left}, and not {entries}")
                _check_failure(program, whole, again, second, chance)
    return 2 * number


def _check_failure(program: str, whole: Whole, record: Record, kind: str, chance: random.Random) -> None:
    with Folder(program) as folder:
        _fail(folder, record, kind, chance)
        what = f"a power failure of the script {whole.script!r}, behind the replies {record.shown!r}, which leaves `{kind}`"
        whole.check_next(folder, record.shown, what)
