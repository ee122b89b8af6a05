"""The versions of each document, as the journals of the archives that are here have them."""

from __future__ import annotations

from bisect import bisect_right
from typing import Iterable, NamedTuple, Sequence

from ..journal import heads
from ..program import Shard
from ..times import NOW


class Version(NamedTuple):
    """From a time on a document has a text, or none."""

    time: int
    arrives: bool


class Change(NamedTuple):
    """A version in the order of time: the `number`th of its document, from 0 on."""

    time: int
    doc: int
    number: int
    arrives: bool


class Versions:
    """Read once; an archive that is given up and taken back is read anew. Linear in the journals' entries."""

    def __init__(self, shards: Iterable[Shard]) -> None:
        self._of: dict[int, list[Version]] = {}
        self.changes: list[Change] = []
        for shard in shards:
            if not shard.is_here:
                continue
            for doc, time, arrives in heads(shard.folder):
                known = self._of.setdefault(doc, [])
                self.changes.append(Change(time, doc, len(known), arrives))
                known.append(Version(time, arrives))
        self.changes.sort(key=lambda change: change.time)
        self.times = [change.time for change in self.changes]

    def __len__(self) -> int:
        """How many documents there are."""
        return len(self._of)

    @property
    def first(self) -> int:
        return self.times[0] if self.times else 0

    @property
    def last(self) -> int:
        return self.times[-1] if self.times else 0

    def of(self, doc: int) -> Sequence[Version]:
        return self._of.get(doc, ())

    def at(self, doc: int, time: int) -> int | None:
        """The number of the version that stands at a time, or of the end that does."""
        number = bisect_right(self.of(doc), time, key=lambda version: version.time) - 1
        return number if number >= 0 else None

    def end(self, doc: int, number: int) -> int:
        """When the next version begins."""
        versions = self.of(doc)
        return versions[number + 1].time if number + 1 < len(versions) else NOW

    def up_to(self, time: int) -> int:
        """How many changes there are up to a time."""
        return bisect_right(self.times, time)
