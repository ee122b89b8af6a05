"""The first entry in which the histories of two archives differ, in words."""

from __future__ import annotations

import tempfile
from itertools import count, zip_longest
from pathlib import Path
from typing import Iterable, NamedTuple

from .journal import Entry, entry_of
from .names import NameTable
from .times import show_time
from .wording import one_line

#: So many bytes of a text are shown before the first that differs, and from it on.
_BEFORE, _BEHIND = 20, 40


class Difference(NamedTuple):
    """The number of the entry, the first byte of it that differs, or None where the leader has no such entry, and a line for
    what each archive has there."""

    number: int
    place: int | None
    shown: list[str]


def difference(own: Iterable[bytes], own_names: bytes, leaders: Iterable[bytes], leaders_names: bytes) -> Difference | None:
    """The first entry of either archive that isn't the other's. The archive that follows may be shorter."""
    for number, here, there in zip(count(1), own, _and_none(leaders)):
        if here != there:
            place = None if there is None else first_difference(here, there)
            return Difference(number, place, _shown(here, there, own_names, leaders_names))
    return None


def first_difference(one: bytes, other: bytes) -> int:
    """The first place at which two rows of bytes aren't the same."""
    return next((place for place, (a, b) in enumerate(zip(one, other)) if a != b), min(len(one), len(other)))


def _and_none(bodies: Iterable[bytes]) -> Iterable[bytes | None]:
    yield from bodies
    while True:
        yield None


def _shown(here: bytes, there: bytes | None, *names: bytes) -> list[str]:
    pair = [None if body is None else entry_of(body) for body in (here, there)]
    parts = [() if entry is None else entry.acts or (entry,) for entry in pair]
    differing = (both for both in enumerate(zip_longest(*parts)) if len({part and part[:5] for part in both[1]}) > 1)
    at, both = next(differing, (0, (parts[0][0], parts[1][0] if parts[1] else None)))
    place = 0
    if all(part and part.arrives for part in both) and both[0].doc == both[1].doc:
        place = first_difference(both[0].text, both[1].text)
    lines = []
    for where, entry, part, table in zip(("here", "there"), pair, both, names):
        within = f"change {at + 1} of {len(entry.acts)}: " if entry and entry.acts else ""
        lines.append(f"{where:6} {within}{_words(part, place, _names(table))}")
    return lines


def _words(part: Entry | None, place: int, names: NameTable) -> str:
    """What an entry or a change of a batch says; of a text what is around a place."""
    if part is None:
        return "nothing"
    if part.plan:
        return f"a plan of {one_line(part.plan.word)}, {part.plan.form}, until {show_time(part.plan.horizon)}"
    if part.marks:
        return "the mark of an archive that may have batches"
    name = names.shown(part.doc)
    if part.deletes:
        return f"{name} ends at {show_time(part.time)}"
    start, end = max(0, place - _BEFORE), place + _BEHIND
    piece = part.text[start:end].decode("utf-8", "ignore")  # without the parts of a character that is cut
    return f"{name} at {show_time(part.time)}: {'…' * (start > 0)}{one_line(piece)}{'…' * (end < len(part.text))}"


def _names(table: bytes) -> NameTable:
    with tempfile.NamedTemporaryFile() as file:
        file.write(table)
        file.flush()
        return NameTable(Path(file.name))
