"""An archive that stands open: one program, asked by one thread at a time, and given up while another tt changes it."""

from __future__ import annotations

import threading
import time
from collections import OrderedDict
from contextlib import contextmanager
from dataclasses import replace
from functools import partial
from pathlib import Path
from typing import Any, Iterator, Sequence

from .. import commands
from ..collection import Collection
from ..errors import InUse, ProgramFailed, ToolError
from ..locks import DOOR, Claim, at_work, turn_is_taken
from ..names import NameTable, unescape
from ..replies import Reply, Rows, Text
from ..times import LAST_TIME
from ..wording import say
from ..words import folded
from .curves import Curve, curve_of
from .door import Door, answer
from .versions import Versions
from .written import written

#: So often it is looked whether another tt wants to change the archive.
_LOOK = 0.2
_PAUSE = 0.05
#: So many seconds it waits for a folder that it had, before it looks whether it is to end.
_WAIT = 1.0
#: So many seconds a question waits for its turn.
PATIENCE = 10.0
#: The curves of so many queries are kept; of one with more rows than that there is none.
_MOST_CURVES = 64
MOST_ROWS = 200_000


class Away(ToolError):
    """The archive can't be asked now; later it can."""


class Standing:
    """Open from `open` to `close`, but for the time that another tt changes the archive."""

    def __init__(self, folder: Path, command: Sequence[str], claim: Claim) -> None:
        self.folder = folder
        self._command, self._claim = command, claim
        self._turn = threading.Lock()
        self._collection: Collection | None = None
        self._ending = threading.Event()
        self._given_up: float | None = None
        self._door = Door(folder / DOOR, partial(answer, self._visited))
        self._curves: OrderedDict[str, Curve | None] = OrderedDict()
        self._folded: list[tuple[str, str]] = []
        self.versions: Versions
        self.names: NameTable

    def open(self) -> None:
        """Takes the folder, and returns when the program has loaded the archive."""
        with self._turn:
            self._open(self._claim.wait)
        threading.Thread(target=self._watch, daemon=True).start()

    def close(self) -> None:
        self._ending.set()
        self._door.close()
        if self._turn.acquire(timeout=PATIENCE):
            try:
                self._shut()
            finally:
                self._turn.release()

    @contextmanager
    def asked(self) -> Iterator[Collection]:
        """The collection, for one thread at a time. A program that ended is started again once by each who asks."""
        if not self._turn.acquire(timeout=self._patience()):
            raise Away(at_work(self.folder) if self._given_up else "many ask at once; ask again")
        try:
            if self._ending.is_set():
                raise Away("this server is ending")
            if self._collection is None:
                self._open(_WAIT)
            assert self._collection
            try:
                yield self._collection
            except BaseException as error:
                if isinstance(error, ProgramFailed) or not isinstance(error, ToolError):
                    self._shut()
                raise
        finally:
            self._turn.release()

    def find(self, query: str, time: int) -> Rows:
        with self.asked() as collection:
            return collection.ask_rows(commands.find(time, query))

    def between(self, query: str, start: int, end: int) -> Rows:
        with self.asked() as collection:
            return collection.ask_rows(commands.between(start, end, query))

    def curve(self, query: str) -> Curve | None:
        """How many documents matched over all time; None where that takes more than `MOST_ROWS` rows."""
        kept = self._curves
        with self.asked() as collection:
            if query not in kept:
                rows = collection.ask_rows(commands.between(0, LAST_TIME, query)).rows
                kept[query] = curve_of(rows) if len(rows) <= MOST_ROWS else None
            kept.move_to_end(query)
            while len(kept) > _MOST_CURVES:
                kept.popitem(last=False)
            return kept[query]

    def texts(self, wanted: Sequence[tuple[int, int]]) -> list[str | None]:
        """The text of each document at its time, or None where it has none then."""
        found: list[str | None] = [None] * len(wanted)

        def keep(place: Any, reply: Reply) -> None:
            if isinstance(reply, Text):
                found[place] = reply.text.decode("utf-8", "replace")

        with self.asked() as collection:
            for place, (doc, time) in enumerate(wanted):
                collection.send(collection.side_of(doc), commands.show(doc, time), [place], keep)
            collection.settle()
        return found

    def number(self, name: str) -> int:
        """The number of a name as pages write it, or as a keeper does."""
        plain = unescape(name)
        return self.names.number(plain if plain in self.names else name)

    def folded_names(self) -> list[tuple[str, str]]:
        """The names in order, each as it is shown and without case and marks."""
        if not self._folded:
            self._folded = sorted((shown, folded(shown)) for shown in map(self.names.shown, dict(self.names.items())))
        return self._folded

    def _visited(self, side: int, question: bytes) -> bytes:
        """The reply to a question that came through the door."""
        replies: list[Reply] = []
        with self.asked() as collection:
            if not 0 <= side < len(collection.shards):
                raise ToolError(f"there is no archive {side}")
            try:
                collection.send(side, question, [None], lambda token, reply: replies.append(reply))
                collection.settle()
            except ProgramFailed as failed:
                raise ProgramFailed(str(failed).removeprefix(f"{collection.shards[side]}: ")) from None
        return written(replies[0])

    def _patience(self) -> float:
        """What has been away for long isn't waited for."""
        if self._given_up is None:
            return PATIENCE
        return max(0.0, min(PATIENCE, self._given_up + PATIENCE - time.monotonic()))

    def _open(self, wait: float) -> None:
        collection = Collection(self.folder, self._command, replace(self._claim, wait=wait))
        try:
            collection.__enter__()
        except InUse as error:
            raise Away(str(error)) from None
        self._curves.clear()
        self._folded.clear()
        self.names, self.versions = collection.names, Versions(collection.shards)
        self._collection = collection
        try:
            self._door.open()
        except OSError as error:
            say(f"other tt can't ask this one: {self.folder}: {error.strerror}")

    def _shut(self) -> None:
        """Ends the program in order; the folder is free then."""
        collection, self._collection = self._collection, None
        if collection:
            try:
                collection.__exit__(None, None, None)
            except ToolError as error:
                say(str(error))

    def _watch(self) -> None:
        while not self._ending.wait(_LOOK):
            if turn_is_taken(self.folder):
                self._give_way()

    def _give_way(self) -> None:
        """Gives the folder up to a tt that wants to change the archive, and takes it back when that has ended."""
        self._door.close()
        with self._turn:
            self._door.close(grace=0)  # who asked meanwhile may have opened it
            self._given_up = time.monotonic()
            self._shut()
            while turn_is_taken(self.folder):
                if self._ending.wait(_PAUSE):
                    return
            while not self._ending.is_set():
                try:
                    self._open(_WAIT)
                    break
                except Away:
                    continue
                except ToolError as error:
                    say(str(error))  # each question tries again, and is told
                    break
            self._given_up = None
