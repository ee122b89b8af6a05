"""What an import would do: `tt import --dry-run`. Everything is read and held against the archive, and nothing is sent."""

from __future__ import annotations

from dataclasses import dataclass

from .changes import Change, Notes
from .collection import Collection
from .feeding import Feeder, Progress
from .journal import entries
from .names import escape
from .replies import Ok, Refused, Reply
from .times import show_time

#: So many names are told.
_MOST_NAMES = 10


@dataclass
class _Latest:
    """A document's newest entry."""

    time: int
    alive: bool


class Trier(Feeder):
    """Answers for the archive, as its own refusals would have it."""

    taken, refused = "would be taken", "would be refused"

    def __init__(self, collection: Collection, source: str, words: str, notes: Notes, progress: Progress) -> None:
        super().__init__(collection, source, words, notes, progress)
        self._documents = _documents(collection)
        self._first: int | None = None
        self._last_taken = 0
        #: In the order of their first version.
        self._names: dict[str, None] = {}

    def prospect(self) -> list[str]:
        if self._first is None:
            return []
        names = [escape(name) for name in self._names]
        more = f", and {len(names) - _MOST_NAMES} more" if len(names) > _MOST_NAMES else ""
        return [
            f"times      {show_time(self._first)} to {show_time(self._last_taken)}",
            f"documents  {len(names)}: {', '.join(names[:_MOST_NAMES])}{more}",
        ]

    def _put(self, change: Change) -> None:
        self.answered(self._sent(change), self._reply(change))
        self._progress.step(1, change.time)

    def _note(self) -> None:
        """Nothing is noted."""

    def _reply(self, change: Change) -> Reply:
        latest = self._documents.get(change.name)
        if change.text is None and not (latest and latest.alive):
            return Refused(4, "NoDocument", "")
        if latest and latest.time == change.time:
            return Refused(3, "SameTime", "")
        self._documents[change.name] = _Latest(change.time, change.text is not None)
        if self._first is None:
            self._first = change.time
        self._last_taken = change.time
        self._names.setdefault(change.name)
        return Ok(0)


def _documents(collection: Collection) -> dict[str, _Latest]:
    """By name the newest entry of each document whose archive is here."""
    found: dict[str, _Latest] = {}
    for shard in collection.shards:
        if not shard.is_here:
            continue
        for entry in entries(shard.folder, texts=False):
            if entry.changes:
                found[collection.names.name(entry.doc)] = _Latest(entry.time, entry.arrives)
    return found
