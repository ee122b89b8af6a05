"""What can be imported. A source has a name by which the ledger knows it, and gives its changes in order of time."""

from __future__ import annotations

from heapq import merge
from operator import attrgetter
from typing import TYPE_CHECKING, Iterator, Protocol

if TYPE_CHECKING:
    from ..changes import Change, Notes
    from ..texts import Reading


class Source(Protocol):
    """A git repository, a wiki's dump, web captures or a folder."""

    @property
    def identity(self) -> str:
        """The same for the same source at another time."""

    def changes(self, reading: Reading, notes: Notes) -> Iterator[Change]:
        """All changes, in order of time."""


class Together:
    """Several sources as one, in order of time over all of them."""

    def __init__(self, sources: tuple[Source, ...]) -> None:
        self.sources = sources

    @property
    def identity(self) -> str:
        return " + ".join(source.identity for source in self.sources)

    def changes(self, reading: Reading, notes: Notes) -> Iterator[Change]:
        return merge(*(source.changes(reading, notes) for source in self.sources), key=attrgetter("time"))
