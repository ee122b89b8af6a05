"""An archive in its folder, or N of them that share its documents: opened, asked and fed.

A folder with a file `shards.tsv` is N archives, one to a line, each with its copies (`places.py`). Document d stands
in number d mod N. Any other folder is one archive. Names and what was imported stand in the folder itself.
"""

from __future__ import annotations

import os
from contextlib import ExitStack
from dataclasses import replace
from functools import partial
from pathlib import Path
from selectors import PollSelector
from types import TracebackType
from typing import Any, Iterable, Sequence

from . import commands
from .copying import Gained, JournalFile, bring_up
from .errors import BadQuery, InUse, NotBuilt, ProgramFailed, ToolError
from .ledger import FILE as IMPORTS
from .locks import CLUSTER, DOOR, Claim, Lock, Use, locked, patiently
from .names import FILE as NAMES
from .names import NameTable
from .places import Places, level_copies, note_level, shards_of, table_of
from .program import JOURNAL, Program, Shard
from .replies import Ok, Refused, Reply, Rows, merge_rows
from .sides import FIRST_QUESTION, LAST_TIME, Asked, End, Fed, Handler, Link, Side, exchange, explained_end
from .wording import counted, say

#: So many commands may be under way in all; it bounds the memory for what isn't answered yet.
_MOST_UNDER_WAY = 8_192
#: The reply to `LAST_TIME` of an archive without changes, which may have the mark of batches.
_NO_CHANGE = [Refused(4, "NoDocument", "")]


def archives_in(folder: Path) -> list[Shard]:
    """The archives of a folder, which has to be there and to have some."""
    if not folder.is_dir():
        raise ToolError(f"there is no folder {folder}")
    shards = shards_of(folder)
    if not any((folder / file).exists() for file in (NAMES, JOURNAL)):
        raise ToolError(f"{folder} has no archive: `tt init {folder}` makes one")
    return shards


class Collection:
    """A context in which the archive is locked, and its programs run."""

    def __init__(self, folder: Path, command: Sequence[str], claim: Claim = Claim()) -> None:
        self.folder = folder
        self.shards = archives_in(folder)
        self._table = table_of(folder)
        self._command = command
        self._claim = claim
        self._locked = ExitStack()
        self._printing = PollSelector()
        self._sides: list[Side] = []
        self._lock: Lock | None = None
        #: The door of the process that has the programs, where it isn't this one.
        self._door = ""
        #: Which of the archives take batches, once they were asked.
        self._batching: list[bool] = []

    def __enter__(self) -> Collection:
        try:
            patiently(self._come_in, self._claim)
            self.names = NameTable(self.folder / NAMES)
            if self._lock:
                patiently(self._start, self._claim)
        except BaseException:
            self._close()
            raise
        return self

    def __exit__(
        self, kind: type[BaseException] | None, error: BaseException | None, trace: TracebackType | None
    ) -> None:
        is_settled = not self._under_way()
        ends = self._close(is_settled)
        if kind is None:
            for end in ends:
                if end.status != 0:
                    raise ProgramFailed(f"{end.shard}: {explained_end(end)}")

    def side_of(self, doc: int) -> int:
        """Which of the archives has the document."""
        return doc % len(self._sides)

    def send(self, side: int, script: bytes, tokens: Sequence[Any], handle: Handler) -> None:
        """Sends commands that have one reply each, to be handled with one token each; handles the
        replies that are there already."""
        self._sides[side].send(script, tokens, handle, self._take_what_is_there)
        self._take(0)
        while self._under_way() > _MOST_UNDER_WAY:
            self._take(None)

    def settle(self) -> None:
        """Handles the replies to everything sent."""
        while self._under_way():
            self._take(None)

    def takes_batches(self, side: int) -> bool:
        """Whether one of the archives may have batches, and its program carries them out. All are asked once."""
        if not self._batching:
            self.settle()
            try:
                self._batching = [isinstance(each, Fed) and each.takes_batches() for each in self._sides]
            except ProgramFailed as failed:
                self._start_again(failed)
                self._batching = [False for _ in self._sides]
        return self._batching[side]

    def mark(self) -> None:
        """Marks the archives as ones that may have batches, where their programs know the mark."""
        try:
            replies = self.ask_all(commands.mark())
        except NotBuilt:
            return
        for reply in replies:
            if not isinstance(reply, Ok) and not (isinstance(reply, Refused) and reply.name == "HasFormat"):
                raise ProgramFailed(f"tt_archive answered {reply} to the mark of batches")

    def ask_side(self, side: int, question: bytes) -> Reply:
        return self._ask([side], question)[0]

    def ask_all(self, question: bytes) -> list[Reply]:
        """The replies of all archives to one question; they work on it at the same time."""
        return self._ask(range(len(self._sides)), question)

    def ask_rows(self, question: bytes) -> Rows:
        """The rows of a `find` or a `between`, as one archive gives them."""
        return merge_rows(self.rows_of(reply) for reply in self.ask_all(question))

    def asked_places(self) -> list[Shard]:
        """Which place of each of the archives is asked now."""
        return [side.links[0].shard for side in self._sides]

    def last_time(self) -> int | None:
        """The archive's last time, or None before there is any entry."""
        return latest(self.last_times())

    def last_times(self) -> list[int | None]:
        """The last time of each of the archives.

        Asked by deleting a document that never was: this is refused, because it lies before the
        last time, or because there is no document.
        """
        times: list[int | None] = []
        for reply in self.ask_all(LAST_TIME):
            match reply:
                case Refused(name="TimeBack", detail=last):
                    times.append(int(last))
                case Refused(name="NoDocument"):
                    times.append(None)
                case _:
                    raise ProgramFailed(f"tt_archive answered {reply} to a deletion of no document")
        return times

    def _ask(self, sides: Sequence[int], question: bytes) -> list[Reply]:
        replies: dict[int, Reply] = {}
        try:
            for side in sides:
                self.send(side, question, [side], replies.__setitem__)
            self.settle()
        except ProgramFailed as failed:
            self._start_again(failed)
            raise NotBuilt(question.split()[0].decode()) from failed
        for reply in replies.values():
            if isinstance(reply, Refused) and reply.name == "Line":
                raise NotBuilt(question.split()[0].decode())
        return [replies[side] for side in sides]

    def _start_again(self, failed: ProgramFailed) -> None:
        """An older program takes a line that it doesn't know for a broken script, and ends. Any other end is an error."""
        if "script fault" not in str(failed):
            raise failed
        self._end()
        self._start()

    @staticmethod
    def rows_of(reply: Reply) -> Rows:
        if isinstance(reply, Rows):
            return reply
        if isinstance(reply, Refused) and reply.name == "BadQuery":
            raise BadQuery(int(reply.detail))
        raise ToolError(f"the question was refused: {reply}")

    def _under_way(self) -> int:
        return sum(len(side.under_way) for side in self._sides)

    def _take(self, timeout: float | None) -> None:
        """Handles the replies that are there, or that come first."""
        for key, _ in self._printing.select(timeout):
            side, link = key.data
            if link in side.links:  # what was handled before may have ended it
                side.take(link)

    def _take_what_is_there(self) -> None:
        self._take(0)

    def _check_journal(self, shard: Shard) -> None:
        """A program makes a new archive where there is none. Where documents have names, it was lost."""
        if shard.is_here and not (shard.folder / JOURNAL).exists():
            raise ToolError(f"{shard.folder / JOURNAL} is gone, and {self.folder / NAMES} names documents of it")

    def _come_in(self) -> None:
        """Takes the folder; a tt that only asks is let in by a `tt cluster` or a `tt serve` that has it."""
        claim = self._claim
        if claim.use is Use.ASKS:
            if self._is_let_in(CLUSTER) or self._is_let_in(DOOR):
                return
            claim = replace(claim, wait=0)  # and tries all again
        self._lock = self._locked.enter_context(locked(self.folder, claim))
        if (self.folder / CLUSTER).exists():
            from .serving.door import is_open  # loaded where it is needed

            self._door = CLUSTER if is_open(self.folder / CLUSTER) else ""
        if self._door and claim.use is Use.ASKS_ALONE:
            raise ToolError(f"a `tt cluster` has this archive, and what it was asked by others counts, too: `tt -C {self.folder} cluster stop` ends it")

    def _is_let_in(self, door: str) -> bool:
        if not (self.folder / door).exists():
            return False
        self._door = door
        try:
            self._start()
        except ConnectionError:  # whoever opened that door is gone
            self._end()
            self._door = ""
        return bool(self._door)

    def _reached(self, side: int, place: int) -> Link:
        """Opens the link to a place: through the door of whoever has its program, or a program of this tt's own."""
        shard = self._table[side][place]
        if self._door:
            return self._visit(shard, side, place)
        if shard.worker:
            raise ToolError(f"{shard} is on a worker, and no cluster is started: `tt -C {self.folder} cluster start` starts one")
        is_old = bool(len(self.names)) and not (place and self._changes)
        if is_old:
            self._check_journal(shard)
        return Program(self._command, shard, self._lock, is_old)

    def _visit(self, shard: Shard, side: int, place: int) -> Link:
        from .serving.visit import Visit  # loaded where they are needed

        if self._door == DOOR:
            from .serving.door import HELLO

            return Visit(self.folder / DOOR, HELLO % side, shard)
        from .cluster.asking import ASKS, FEEDS

        return Visit(self.folder / CLUSTER, (FEEDS if self._changes else ASKS) % (side, place), shard)

    def _start(self) -> None:
        """Starts the programs, and returns when each has its archive, as it then answers a first question."""
        self._printing = PollSelector()
        level = level_copies(self.folder)
        try:
            for number, places in enumerate(self._table):
                side = self._side(number, places, level)
                self._sides.append(side)
                side.open()
            for side in self._sides:
                side.send(FIRST_QUESTION, [None], _nothing, self._take_what_is_there)
            self.settle()
            self._bring_up(level)
        except InUse:
            self._end()
            raise

    def _side(self, number: int, places: Places, level: set[tuple[int, Shard]]) -> Side:
        reach = partial(self._reached, number)
        if self._changes:
            return Fed(places, reach, self._printing)
        if self._door == DOOR:
            places = places[:1]  # whoever is behind it chooses
        known = [place == 0 or (number, it) in level for place, it in enumerate(places)]
        return Asked(places, reach, self._printing, known, again=self._door == CLUSTER)

    @property
    def _changes(self) -> bool:
        return self._lock is not None and self._claim.use is Use.CHANGES

    def _fed(self) -> list[tuple[int, Fed]]:
        return [(number, side) for number, side in enumerate(self._sides) if isinstance(side, Fed)]

    def _bring_up(self, level: set[tuple[int, Shard]]) -> None:
        """Brings up the copies that may lack something. From here on no copy is known to be level."""
        for number, side in self._fed():
            known = {shard for archive, shard in level if archive == number}
            if self._pass(number, side, known):
                self._pass(number, side, set())  # the others lack what the first place has now
        if level and self._changes:
            note_level(self.folder, ())

    def _pass(self, number: int, side: Fed, known: set[Shard]) -> bool:
        """Makes each copy of an archive level that isn't known to be so, and answers whether the first place was behind."""
        is_behind = False
        for link in list(side.copies):
            try:
                # One that was level may have been lost, and made anew.
                if link.shard in known and exchange(link, LAST_TIME, 1) == exchange(side.links[0], LAST_TIME, 1) != _NO_CHANGE:
                    continue
                gained = self._levelled(number, side, link)
            except (ToolError, OSError) as error:
                side.strike(link, str(error))
                continue
            for place, count in zip((side.places[0], link.shard), gained):
                if count:
                    say(f"{place} was brought up by {counted(count, 'entry', 'entries')}")
            is_behind |= gained.first > 0
        return is_behind

    def _levelled(self, number: int, side: Fed, copy: Link) -> Gained:
        if self._door:
            from .cluster.asking import request  # loaded where it is needed

            return Gained(*request(self.folder, "level", number, side.places.index(copy.shard)))
        journals = JournalFile(side.places[0]), JournalFile(copy.shard)
        return bring_up(*journals, partial(exchange, side.links[0]), partial(exchange, copy))

    def _end(self) -> list[End]:
        """Ends the programs, whose last replies nobody takes."""
        try:
            for side in self._sides:
                side.end()
            return [end for side in self._sides for end in side.ends()]
        finally:
            self._sides.clear()

    def _close(self, is_settled: bool = False) -> list[End]:
        """Ends the programs, and gives the folder up. Where all was answered, the copies that are still there are level."""
        copies = [(number, link.shard) for number, side in self._fed() for link in side.copies]
        try:
            ends = self._end()
            if is_settled and copies and all(end.status == 0 for end in ends):
                note_level(self.folder, copies)
            return ends
        finally:
            self._locked.close()


def _nothing(token: Any, reply: Reply) -> None:
    """What is done with the reply to a first question."""


def latest(times: Iterable[int | None]) -> int | None:
    """The last of the times that are known."""
    return max((time for time in times if time is not None), default=None)


def make_archive(folder: Path, command: Sequence[str], claim: Claim, form: int | None) -> None:
    """Makes the folder, an empty archive in it where there is none, and the tables beside it. An archive without changes has
    format 2 unless 1 is asked for, and an older one gets it where it is asked for."""
    folder.mkdir(parents=True, exist_ok=True)
    for file in (NAMES, IMPORTS):
        (folder / file).touch()
    with Collection(folder, command, claim) as collection:
        if form == 2 or (form is None and collection.last_time() is None):
            collection.mark()
    descriptor = os.open(folder, os.O_RDONLY)
    try:
        os.fsync(descriptor)
    finally:
        os.close(descriptor)
