"""What an import is made of: texts of documents from a time on, in order of time.

A source gives changes: from this time on the document of this name has this text, or none.
`Tidier` makes of them what an archive can take: times from 1970 on, one change of a document at one
time, and no change that changes nothing.
"""

from __future__ import annotations

import hashlib
from collections import Counter
from dataclasses import dataclass, field
from itertools import groupby
from operator import attrgetter
from typing import Callable, Iterable, Iterator, NamedTuple

from .commands import MOST_TEXT

#: Of each kind of note so many are told one by one; all are counted.
_TOLD_OF_A_KIND = 10


class Change(NamedTuple):
    """From `time` on the document has this text (UTF-8), or none."""

    time: int
    name: str
    text: bytes | None
    place: str
    #: It is not known whether the document has a text before, so ending it may be refused.
    maybe: bool = False


@dataclass
class Notes:
    """What is told of an import beside its versions: counted, the first of each kind with its place."""

    tell: Callable[[str], None]
    #: Shows how far the reading of an input is.
    progress: Callable[[str], None] = lambda text: None
    #: Each is told, also what is counted alone.
    every: bool = False
    counts: Counter[str] = field(default_factory=Counter)

    def add(self, kind: str, place: str) -> None:
        self.counts[kind] += 1
        if self.every or self.counts[kind] <= _TOLD_OF_A_KIND:
            self.tell(f"{place}: {kind}")
        elif self.counts[kind] == _TOLD_OF_A_KIND + 1:
            self.tell(f"(more of `{kind}` are counted, and not told one by one)")

    def read(self, count: int, what: str) -> None:
        """So much was read, before anything could be sent."""
        if count % 100 == 0:
            self.progress(f"{count:,} {what} read")

    def count(self, kind: str, place: str) -> None:
        """Counts what isn't worth a line of its own, unless each is told."""
        self.counts[kind] += 1
        if self.every:
            self.tell(f"{kind}: {place}")


class Tidier:
    """Gives the changes that say something new, one for each document and time.

    `known` says whether the archive may have the document from elsewhere.
    """

    def __init__(self, known: Callable[[str], bool], notes: Notes) -> None:
        self._known = known
        self._notes = notes
        #: By name a digest of the text, or None where there is none.
        self._texts: dict[str, bytes | None] = {}

    def tidied(self, changes: Iterable[Change]) -> Iterator[Change]:
        for _, together in groupby(self._from_1970(changes), key=attrgetter("time")):
            last: dict[str, Change] = {}
            for change in together:
                replaced = last.get(change.name)
                if replaced and replaced.text not in (None, change.text):
                    self._notes.count("versions that another of the same second replaced", replaced.place)
                last[change.name] = change
            for change in last.values():
                yield from self._new_in(change)

    def forget(self, name: str) -> None:
        """The document's last change didn't reach the archive."""
        self._texts.pop(name, None)

    def _from_1970(self, changes: Iterable[Change]) -> Iterator[Change]:
        for change in changes:
            if change.time < 0:
                self._notes.count("versions before 1970, taken at 1970-01-01", change.place)
                change = change._replace(time=0)
            yield change

    def _new_in(self, change: Change) -> Iterator[Change]:
        before = self._texts.get(change.name)
        unknown = before is None and change.name not in self._texts and self._known(change.name)
        if change.text is not None and len(change.text) > MOST_TEXT:
            # An archive refuses this text. What the document had before isn't its text any more.
            yield change
            change = change._replace(text=None, place=f"{change.place} (too long: the version before ends)")
        if change.text is None:
            self._texts[change.name] = None
            if before or unknown:
                yield change._replace(maybe=unknown)
            return
        digest = hashlib.blake2b(change.text, digest_size=16).digest()
        if before == digest:
            self._notes.count("versions with the text of the one before", change.place)
            return
        self._texts[change.name] = digest
        yield change
