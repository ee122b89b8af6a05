"""The bytes of the journal, its entries and the sublists."""

from __future__ import annotations

from dataclasses import dataclass
from struct import pack
from typing import Iterable

from .base import FOREVER, MOST_ACTS, MOST_BOUNDARIES, MOST_BYTES, MOST_TEXT, PAGE, NotArchive
from .plans import SINCE, Posting

HEADER, OPEN, CLOSED = b"TIMETRAVELTEXT\0\1", 0xA5, b"\0"
FLAT, BLOCKS = 1, 2
ARRIVE, DELETE, PLAN, BATCH, MARK = range(1, 6)


@dataclass(frozen=True)
class Place:
    """A segment's left cut, and where its sublist lies."""

    cut: int
    page: int
    size: int
    digest: bytes

    def pages(self) -> range:
        return range(self.page, self.page - (-self.size // PAGE))


@dataclass(frozen=True)
class Change:
    """A document's version at a time, or its deletion, which has no text."""

    document: int
    time: int
    text: bytes | None

    def entry(self) -> bytes:
        return pack(">BIQ", DELETE if self.text is None else ARRIVE, self.document, self.time) + (self.text or b"")


@dataclass(frozen=True)
class Batch:
    """Changes that come all at once."""

    changes: tuple[Change, ...]

    def size(self) -> int:
        """The bytes of the texts together."""
        return sum(len(it.text or b"") for it in self.changes)

    def entry(self) -> bytes:
        spelled = [it.entry() for it in self.changes]
        return pack(">BI", BATCH, len(spelled)) + b"".join(pack(">I", len(it)) + it for it in spelled)


@dataclass(frozen=True)
class Mark:
    """The mark of a journal that may have batches."""

    def entry(self) -> bytes:
        return pack(">BH", MARK, 2)


@dataclass(frozen=True)
class Plan:
    """What an entry says of a stored plan."""

    layout: int
    kind: int
    since: int
    factor: tuple[int, int]
    horizon: int
    key: str
    places: tuple[Place, ...]

    def segments(self) -> list[tuple[int, int]]:
        cuts = [it.cut for it in self.places]
        return list(zip(cuts, [*cuts[1:], self.horizon]))

    def entry(self) -> bytes:
        since = pack(">Q", self.since) if self.kind == SINCE else b""
        key = self.key.encode()
        places = b"".join(pack(">QIQ", it.cut, it.page, it.size) + it.digest for it in self.places)
        head = pack(">BBB", PLAN, self.layout, self.kind) + since + pack(">IIQB", *self.factor, self.horizon, len(key))
        return head + key + pack(">I", len(self.places)) + places


def sublist(postings: list[Posting], start: int, end: int, layout: int) -> bytes:
    """The bytes of a segment's sublist: of the postings of a list that have a time in the segment."""
    if layout == FLAT:
        return b"".join(pack(">IIQQ", it.document, it.frequency, it.start, it.end) for it in clipped(postings, start, end))
    return b"".join(map(_block, blocks_of(postings, start, end)))


def clipped(postings: list[Posting], start: int, end: int) -> list[Posting]:
    """The postings that have a time in a span, as they are."""
    return [it for it in postings if it.start < end and start < it.end]


def blocks_of(postings: list[Posting], start: int, end: int) -> list[list[Posting]]:
    """The same in pieces of 128."""
    found = clipped(postings, start, end)
    return [found[at : at + 128] for at in range(0, len(found), 128)]


def _block(postings: list[Posting]) -> bytes:
    first = postings[0]
    numbers = [first.frequency, first.start, first.end - first.start]
    for before, it in zip(postings, postings[1:]):
        start = it.start if it.document != before.document else it.start - before.end
        numbers += [it.document - before.document, it.frequency, start, it.end - it.start]
    body = b"".join(map(_spelled, numbers))
    greatest = max(it.frequency for it in postings)
    return pack(">BHIII", len(postings), len(body), greatest, first.document, postings[-1].document) + body


def _spelled(number: int) -> bytes:
    return bytes([number]) if number < 128 else bytes([number & 127 | 128]) + _spelled(number >> 7)


def spell_journal(entries: Iterable[bytes]) -> bytes:
    return HEADER + b"".join(bytes([OPEN]) + pack(">I", len(it)) + it for it in entries) + CLOSED


def read_journal(journal: bytes) -> list[tuple[int, bytes]]:
    """The entries of a journal, each with the place of its gate."""
    if len(journal) <= 17:
        return []
    for place, byte in enumerate(HEADER):
        if journal[place] != byte:
            raise NotArchive(place)
    found, gate = [], 16
    while journal[gate] == OPEN:
        size = int.from_bytes(journal[gate + 1 : gate + 5], "big")
        if gate + 5 + size >= len(journal):
            raise NotArchive(gate)
        found.append((gate, journal[gate + 5 : gate + 5 + size]))
        gate += 5 + size
    return found


class _Fields:
    """The fields of an entry that begins at a place of the journal."""

    def __init__(self, entry: bytes, at: int) -> None:
        self.entry, self.origin, self.at = entry, at, 0

    def take(self, size: int) -> bytes:
        field = self.entry[self.at : self.at + size]
        self.hold(len(field) == size)
        self.at += size
        return field

    def number(self, size: int, low: int = 0, high: int = 1 << 64) -> int:
        """A number that isn't below `low` and is below `high`."""
        number = int.from_bytes(self.take(size), "big")
        self.at -= size
        self.hold(low <= number < high)
        self.at += size
        return number

    def text(self, size: int) -> str:
        field = self.take(size)
        try:
            return field.decode()
        except UnicodeDecodeError:
            self.at -= size
            self.hold(False)

    def end(self) -> None:
        """Nothing stands behind the fields."""
        self.hold(self.at == len(self.entry))

    def hold(self, is_allowed: bool) -> None:
        if not is_allowed:
            raise NotArchive(self.origin + self.at)


def read_entry(entry: bytes, at: int = 0) -> Change | Plan | Batch | Mark:
    """An entry, which begins at a place of the journal."""
    fields = _Fields(entry, at)
    tag = fields.number(1, ARRIVE, MARK + 1)
    if tag == PLAN:
        return _read_plan(fields)
    if tag == BATCH:
        return _read_batch(fields)
    if tag == MARK:
        fields.number(2, 2, 3)
        fields.end()
        return Mark()
    return _read_change(fields, tag)


def _read_change(fields: _Fields, tag: int) -> Change:
    """A change, from behind its tag to the end of its bytes."""
    document, time = fields.number(4), fields.number(8, 0, FOREVER)
    if tag == DELETE:
        fields.end()
        return Change(document, time, None)
    size = len(fields.entry) - fields.at
    fields.hold(size <= MOST_TEXT)
    return Change(document, time, fields.text(size).encode())


def _read_batch(fields: _Fields) -> Batch:
    """The changes of a batch, each of which ends where its length tells."""
    changes = []
    for _ in range(fields.number(4, 1, MOST_ACTS + 1)):
        size = fields.number(4)
        begin = fields.origin + fields.at
        change = _Fields(fields.take(size), begin)
        changes.append(_read_change(change, change.number(1, ARRIVE, DELETE + 1)))
    fields.end()
    return Batch(tuple(changes))


def _read_plan(fields: _Fields) -> Plan:
    layout, kind = fields.number(1, 1, 3), fields.number(1, 1, 4)
    since = fields.number(8, 0, FOREVER) if kind == SINCE else 0
    over = fields.number(4, 1)
    factor = over, fields.number(4, 1, over + 1)
    horizon = fields.number(8, 0, FOREVER)
    key = fields.text(fields.number(1, 1))
    places: list[Place] = []
    for _ in range(fields.number(4, 1, MOST_BOUNDARIES)):
        cut = fields.number(8, places[-1].cut + 1 if places else 0, horizon)
        page = fields.number(4, 0, MOST_BYTES // PAGE)
        places.append(Place(cut, page, fields.number(8, 0, MOST_BYTES - page * PAGE + 1), fields.take(32)))
    fields.end()
    return Plan(layout, kind, since, factor, horizon, key, tuple(places))
