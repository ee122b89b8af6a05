"""The command that follows another archive: follow.

The leader's `tt export` writes packets, and this archive's program takes them from the same pipe. It begins with the last
entry that this archive has, and tells the digest of the journal up to there. So an archive that went its own way anywhere is noticed
before anything is taken. Each entry is taken as safely as an arrival, so a stop of either side costs nothing: the next time goes on
from there.
"""

from __future__ import annotations

import argparse
import select
import shlex
import subprocess
import sys
import time
from dataclasses import replace
from pathlib import Path
from typing import BinaryIO, Iterator, NamedTuple

from .differing import difference
from .errors import InUse, NotBuilt, ToolError
from .exporting import TABLES, check_alone, tables_of
from .feeding import Progress
from .journal import Reach, bodies, digest, reach
from .locks import DOOR, Lock, Use, locked
from .opening import claim_of
from .places import replace_file
from .program import JOURNAL, USAGE, Shard, find_program
from .serving.door import is_open
from .sides import End, explained_end
from .stops import Stopped
from .times import parse_wait, show_time
from .wording import counted, say

_TT = Path(__file__).resolve().parents[1] / "tt"
_OPTION = "--follow"
#: The least time between two exports.
_LEAST = 1.0
#: The statuses of a program that follows: the files are no archive's, an entry differs, and a packet can't be taken.
_NO_ARCHIVE, _CONFLICT, _BAD = 3, 14, 15


class _Later(ToolError):
    """What another time may mend."""


class _Apart(Exception):
    """The leader doesn't have the entries that this archive has."""


def follow(options: argparse.Namespace) -> None:
    every = parse_wait(options.every) if options.every else None
    if every is not None and every < _LEAST:
        raise ToolError(f"between two exports is {_LEAST:g}s at least")
    follower = _Follower(options, _leader_of(options.leader))
    if every is None:
        follower.take()
        return
    told = ""
    try:
        while True:
            try:
                follower.take()
                told = ""
            except BrokenPipeError:
                raise  # nobody reads what is printed
            except (_Later, InUse, OSError) as fault:
                if str(fault) != told:  # it is told once
                    told = str(fault)
                    say(told)
            sys.stdout.flush()
            time.sleep(every)
    except Stopped:
        pass  # this is how it ends


def _leader_of(words: list[str]) -> Shard:
    match words:
        case ["ssh", login, folder] if not login.startswith("-"):
            return Shard(Path(folder), login)
        case [folder]:
            return Shard(Path(folder).absolute())
    raise ToolError("whom to follow is a folder, or `ssh`, a host and a folder there")


class _Follower:
    """The archive that follows, and whom."""

    def __init__(self, options: argparse.Namespace, leader: Shard) -> None:
        self._options, self._leader = options, leader
        self._claim = claim_of(options)
        self._command = find_program(options.program)
        self._folder = options.archive
        self._held = Reach()
        #: Whether the leader was seen to have all that this one has, and not the last entry alone.
        self._is_front = False
        if leader.is_here and self._folder.resolve() == leader.folder.resolve():
            raise ToolError("an archive can't follow itself")
        _prepare(self._folder)

    def take(self) -> None:
        """Takes what the leader has more, and tells how much that was."""
        before, self._held = reach(self._folder, self._held), Reach()  # after a fault all is looked at again
        if self._is_level(before):
            self._held = before
            if not (self._options.every or self._options.quiet):
                print(f"0 entries behind; {_told(before)}")
            return
        if not is_open(self._folder / DOOR):
            with locked(self._folder, replace(self._claim, use=Use.ASKS)):
                pass  # whoever is at work here is waited for before the leader is disturbed
        own_front = digest(self._folder, 0, before.gate)
        try:
            with _Export(self._options, self._leader, max(before.entries, 1)) as export:
                if before.entries and export.front != own_front:
                    raise _Apart
                export.wait()  # this archive isn't held while the leader's is loaded
                with locked(self._folder, self._claim) as lock:
                    took = self._feed(export, lock, before.entries)
                    for name, own, table in zip(TABLES, tables_of(self._folder), export.tables):
                        if own != table:
                            replace_file(self._folder / name, table)
        except _Apart:
            raise self._difference() from None
        self._held, self._is_front = reach(self._folder, before), True
        if not self._options.quiet:
            them = ", and took it" if took == 1 else ", and took them" if took else ""
            print(f"{counted(took, 'entry', 'entries')} behind{them}; {_told(self._held)}")

    def _is_level(self, held: Reach) -> bool:
        """Whether the leader's journal has the last entry of this one at the same place, and none behind it; the first time also
        whether it has the same in front of that. It is looked at without a lock, as what is being written doesn't count yet."""
        self._is_front = self._has_same(held.last, held.gate + 1) and (self._is_front or self._has_same(0, held.gate))
        return self._is_front

    def _has_same(self, start: int, end: int) -> bool:
        own = digest(self._folder, start, end)
        return bool(own) and own == _digest(self._leader, start, end)

    def _feed(self, export: _Export, lock: Lock, held: int) -> int:
        """Has the program take the packets, and answers how many entries it took."""
        program = subprocess.Popen(
            [*self._command, _OPTION], cwd=self._folder, stdin=export.packets, stdout=subprocess.PIPE, stderr=subprocess.PIPE,
            pass_fds=(lock.descriptor,), start_new_session=True,
        )  # fmt: skip
        assert program.stdout
        lock.handed_to(program.pid)
        export.packets.close()  # so that the leader's program ends where this one does
        behind, had, took = export.entries - held, 0, 0
        progress = Progress(not self._options.quiet)
        try:
            for line in program.stdout:
                had += line.startswith(b"had ")
                took += line.startswith(b"took ")
                progress.show(f"{took:,} of {behind:,} entries taken")
        except BaseException:
            export.end()  # then no packets come, and the program ends
            raise
        finally:
            said = program.communicate()[1].decode("utf-8", "replace").strip()
            progress.clear()
        self._judge(End(Shard(self._folder), program.returncode, said), export, f"took {took} of {counted(behind, 'entry', 'entries')}")
        if held and not had:
            raise _Apart
        return took

    def _judge(self, end: End, export: _Export, took: str) -> None:
        """An error where not all came that the leader has, or not all of it was taken."""
        if end.status == _CONFLICT:
            raise _Apart
        if end.status == USAGE:
            raise NotBuilt(_OPTION)
        if end.status not in (0, _BAD):
            export.end()  # it may be loading still
            fault = ToolError if end.status == _NO_ARCHIVE else _Later
            raise fault(f"{took}; {self._folder}: {explained_end(end)}")
        if fault := export.fault():
            raise _Later(f"{took}; {fault}")
        if end.status == _BAD:
            raise ToolError(
                f"{took}; the next one can't be taken here ({end.said}): whether {self._leader} is sound, its `tt verify` tells, "
                "and an older tt_archive here may not know such an entry"
            )

    def _difference(self) -> ToolError:
        """Tells the first entry in which the two archives differ. So the leader exports all that it has once more."""
        with _Export(self._options, self._leader, 1) as export:
            found = difference(bodies(self._folder), tables_of(self._folder)[0], export.bodies(), export.tables[0])
            if (found is None or found.place is None) and (fault := export.fault()):
                return _Later(fault)  # it had no time to write all that it has
        if found is None:
            return _Later(f"{self._leader} had another history for a moment, and has this one's now")
        where = f"{self._leader} has no" if found.place is None else f"from its byte {found.place} on {self._leader} has another"
        return ToolError(
            f"{where} entry {found.number}, so one of the two archives went its own way or was damaged, and nothing more is taken: whoever knows which "
            "one is right has the other follow it anew, from an empty folder",
            found.shown,
        )


class _Export:
    """A `tt export` at the leader. It holds the leader until it has ended."""

    def __init__(self, options: argparse.Namespace, leader: Shard, number: int) -> None:
        words = ["-C", str(leader.folder), "--wait", f"{options.wait}s"]
        words += ["--program", options.program] if options.program else []
        words += ["export", str(number)]
        here = [sys.executable, "-S", str(_TT), *words]
        command = ["ssh", leader.login, shlex.join([str(_TT), *words])] if leader.login else here
        self._leader = leader
        self._process = subprocess.Popen(
            command, bufsize=0, stdin=subprocess.DEVNULL, stdout=subprocess.PIPE, stderr=subprocess.PIPE, start_new_session=True
        )
        assert self._process.stdout
        self.packets: BinaryIO = self._process.stdout

    def __enter__(self) -> _Export:
        """Returns when the leader is held: it then tells how many entries it has, and its tables."""
        try:
            head = self.packets.readline()
            words = head.split()
            self.front = words.pop(1).decode("ascii", "replace") if len(words) > 1 else ""
            self.entries, *sizes = (int(word) if word.isdigit() else -1 for word in words or [b""])
            self.tables = [self._read(size) for size in sizes]
            is_head = len(sizes) == len(TABLES)
            if not is_head or [*map(len, self.tables)] != sizes:
                self.packets.close()
                fault = self.fault() if is_head or not head else ""
                raise _Later(fault or f"{self._leader}: what its tt writes can't be read")
        except BaseException:
            self.end()
            raise
        return self

    def __exit__(self, *error: object) -> None:
        self.end()

    def wait(self) -> None:
        """Returns when the first packet is there, or the end."""
        select.select([self.packets], [], [])

    def bodies(self) -> Iterator[bytes]:
        """The entries in the packets."""
        while len(head := self._read(12)) == 12:
            yield self._read(int.from_bytes(head[8:], "big"))

    def fault(self) -> str:
        """Why it ended before all was written, once it has ended. That nobody takes its packets is no fault of its own."""
        assert self._process.stderr
        said = self._process.stderr.read().decode("utf-8", "replace").strip()
        status = self._process.wait()
        if status == 0 or "sink fault" in said:
            return ""
        line = said.splitlines()[-1].removeprefix("tt: ") if said else f"its `tt export` ended with status {status}"
        return line if self._leader.is_here and str(self._leader.folder) in line else f"{self._leader}: {line}"

    def end(self) -> None:
        """Ends it where it goes on; an export may be left anywhere."""
        self.packets.close()
        self._process.terminate()
        self._process.communicate()

    def _read(self, size: int) -> bytes:
        pieces = []
        while size > 0 and (piece := self.packets.read(size)):
            pieces.append(piece)
            size -= len(piece)
        return b"".join(pieces)


def _prepare(folder: Path) -> None:
    """A folder that isn't there, or is empty, becomes an archive."""
    if folder.is_dir() and any(folder.iterdir()):
        check_alone(folder)
        if not (folder / JOURNAL).exists() and any(tables_of(folder)):
            raise ToolError(f"{folder / JOURNAL} is gone")
        return
    folder.mkdir(parents=True, exist_ok=True)
    for name in TABLES:
        (folder / name).touch()


def _told(held: Reach) -> str:
    return f"has {held.entries}" + ("" if held.time is None else f", until {show_time(held.time)}")


def _digest(place: Shard, start: int, end: int) -> str:
    """The digest of a part of the journal that a leader has."""
    if not place.login:
        return digest(place.folder, start, end)
    path = shlex.quote(str(place.folder / JOURNAL))
    run = f"tail -c +{start + 1} {path} | head -c {end - start} | sha256sum"
    return subprocess.run(["ssh", place.login, run], stdin=subprocess.DEVNULL, capture_output=True, text=True).stdout[:64]
