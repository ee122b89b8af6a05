"""Versions set aside until all are known, and given back in order of time.

Inputs that go document by document have to be read whole before the first version can be sent.
Their texts wait in a file without a name; an entry takes some 200 bytes of memory.
"""

from __future__ import annotations

import tempfile
from dataclasses import dataclass
from typing import Generic, Iterator, TypeVar

T = TypeVar("T")


@dataclass(frozen=True, slots=True)
class Place:
    """Where a text stands in the spool."""

    at: int
    size: int


class Spool(Generic[T]):
    """Entries by a key that orders them, and texts."""

    def __init__(self) -> None:
        self._file = tempfile.TemporaryFile(prefix="tt-spool-")
        self._entries: list[tuple[tuple[int, ...], T]] = []
        self._end = 0

    def __len__(self) -> int:
        return len(self._entries)

    def put(self, text: bytes) -> Place:
        self._file.write(text)
        place = Place(self._end, len(text))
        self._end += len(text)
        return place

    def text(self, place: Place) -> bytes:
        self._file.seek(place.at)
        return self._file.read(place.size)

    def add(self, key: tuple[int, ...], entry: T) -> None:
        """Entries of one key come in the order in which they were added."""
        self._entries.append((key, entry))

    def in_order(self) -> Iterator[tuple[int, T]]:
        """The first number of each entry's key, which is its time, and the entry."""
        self._entries.sort(key=lambda pair: pair[0])
        for key, entry in self._entries:
            yield key[0], entry
