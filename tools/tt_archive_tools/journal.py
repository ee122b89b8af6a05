"""Reading an archive's journal, by docs/formats.md: what it has, without running the program."""

from __future__ import annotations

import hashlib
import io
import mmap
import struct
from dataclasses import dataclass, field
from itertools import islice
from pathlib import Path
from typing import BinaryIO, Iterable, Iterator, NamedTuple

from .errors import InputError
from .program import JOURNAL, PAGES, Shard

HEADER = b"TIMETRAVELTEXT\x00\x01"
_OPEN = b"\xa5"
_PAGE = 4_096
#: So much is read at once of what is only counted in a digest.
_PIECE = 1 << 20
_ARRIVE, _DELETE, _PLAN, _BATCH, _MARK = 1, 2, 3, 4, 5
#: The length of an entry, or of a change in a batch, its tag, and what follows it in an arrival and a deletion.
_HEAD = struct.Struct(">IBIQ")
#: The kinds of plans, as a script writes them.
_KINDS = {1: "guarantee {}/{}", 2: "space {}/{} uniform", 3: "space {}/{} since {}"}
#: A segment: its cut, first page, bytes, and a digest.
_SEGMENT = struct.Struct(">QIQ32x")


@dataclass(frozen=True)
class StoredPlan:
    """A plan as its entry has it: `word` is the word's key, `pages` the first page of each sublist that
    has one, and `end` how many bytes of Pages they reach to."""

    word: str
    form: str
    horizon: int
    segments: int
    pages: frozenset[int]
    end: int


class Entry(NamedTuple):
    """An arrival (with its text, where texts are read), a deletion, a plan, a batch, or the mark of a journal that may have
    batches. The last three have no document."""

    tag: int
    doc: int
    time: int
    text: bytes
    plan: StoredPlan | None = None
    #: Where the text (or what a plan has behind its first 13 bytes) stands in the journal, and how many bytes it has.
    at: int = 0
    size: int = 0
    #: The changes of a batch.
    acts: tuple[Entry, ...] = ()

    @property
    def after(self) -> int:
        """Where the gate behind the entry stands."""
        return self.at + self.size

    @property
    def arrives(self) -> bool:
        return self.tag == _ARRIVE

    @property
    def deletes(self) -> bool:
        return self.tag == _DELETE

    @property
    def changes(self) -> bool:
        """Whether it is a change of a document."""
        return self.arrives or self.deletes

    @property
    def marks(self) -> bool:
        return self.tag == _MARK


class Reach(NamedTuple):
    """How far a journal reaches: how many entries it has, where the gates of the last one and behind it stand, and the last
    time of a change."""

    entries: int = 0
    last: int = len(HEADER)
    gate: int = len(HEADER)
    time: int | None = None


def entries(folder: Path, texts: bool) -> Iterator[Entry]:
    """The entries in order, and of a batch its changes. Without texts only the heads are read."""
    for entry in _entries(folder, texts):
        yield from entry.acts or (entry,)


def _entries(folder: Path, texts: bool) -> Iterator[Entry]:
    """The same, and of a batch itself."""
    path = folder / JOURNAL
    try:
        with open(path, "rb") as file:
            if path.stat().st_size > len(HEADER) + 1:
                yield from _records(file, path, texts)
    except OSError as error:
        raise InputError(str(path), error.strerror or str(error)) from None


def reach(folder: Path, before: Reach = Reach(), most: int | None = None) -> Reach:
    """How far the journal reaches, where it is known to reach so far; where there is none, as a new one. Of the entries behind
    those that are known, so many at most are looked at."""
    path, found = folder / JOURNAL, before
    try:
        with open(path, "rb") as file:
            is_new = path.stat().st_size <= len(HEADER) + 1
            if not is_new:
                _test_header(file, path)
            file.seek(before.gate)
            for entry in () if is_new else islice(entries_from(file, before.gate, str(path), texts=False), most):
                times = [act.time for act in entry.acts or (entry,) if act.changes]
                found = Reach(found.entries + 1, found.gate, entry.after, times[-1] if times else found.time)
    except FileNotFoundError:
        return Reach()
    except OSError as error:
        raise InputError(str(path), error.strerror or str(error)) from None
    return found


def digest(folder: Path, start: int, end: int) -> str:
    """The SHA-256 of a part of the journal, as far as that is there; nothing where it can't be read."""
    found = hashlib.sha256()
    try:
        with open(folder / JOURNAL, "rb") as file:
            file.seek(start)
            while start < end and (piece := file.read(min(_PIECE, end - start))):
                found.update(piece)
                start += len(piece)
    except OSError:
        return ""
    return found.hexdigest()


def bodies(folder: Path) -> Iterator[bytes]:
    """The entries as the bytes that they are."""
    with open(folder / JOURNAL, "rb") as file:
        file.seek(len(HEADER))
        while file.read(1) == _OPEN:
            yield file.read(int.from_bytes(file.read(4), "big"))


def entry_of(body: bytes) -> Entry:
    """The entry that so many bytes are."""
    [entry] = entries_from(io.BytesIO(_OPEN + len(body).to_bytes(4, "big") + body), 0, "an entry", texts=True)
    return entry


def heads(folder: Path) -> Iterator[tuple[int, int, bool]]:
    """The document and the time of each arrival and deletion, in order, and whether it is an arrival. Of all ways
    to read a journal the fastest."""
    path = folder / JOURNAL
    try:
        with open(path, "rb") as file:
            size = path.stat().st_size
            if size <= len(HEADER) + 1:
                return
            with mmap.mmap(file.fileno(), size, access=mmap.ACCESS_READ) as data:
                if data[: len(HEADER)] != HEADER:
                    raise InputError(str(path), "no archive's journal")
                gate = len(HEADER)
                while data[gate] == _OPEN[0]:
                    if data[gate + 5] in (_ARRIVE, _DELETE):
                        length, tag, doc, time = _HEAD.unpack_from(data, gate + 1)
                        yield doc, time, tag == _ARRIVE
                    else:
                        length = _number(data, gate + 1, 4)
                        if data[gate + 5] == _BATCH:
                            yield from _heads_of_batch(data, gate + 6)
                    gate += 5 + length
    except (OSError, IndexError, struct.error) as error:
        raise InputError(str(path), getattr(error, "strerror", None) or str(error)) from None


def _heads_of_batch(data: mmap.mmap, at: int) -> Iterator[tuple[int, int, bool]]:
    """The same of the changes of a batch, whose number stands at a place."""
    count, at = _number(data, at, 4), at + 4
    for _ in range(count):
        length, tag, doc, time = _HEAD.unpack_from(data, at)
        yield doc, time, tag == _ARRIVE
        at += 4 + length


def history(folder: Path, doc: int) -> list[Entry]:
    """A document's versions and ends, in order of time."""
    return [entry for entry in entries(folder, texts=False) if entry.changes and entry.doc == doc]


def text_of(folder: Path, entry: Entry) -> bytes:
    """The text of a version."""
    path = folder / JOURNAL
    try:
        with open(path, "rb") as file:
            file.seek(entry.at)
            return file.read(entry.size)
    except OSError as error:
        raise InputError(str(path), error.strerror or str(error)) from None


def _test_header(file: BinaryIO, path: Path) -> None:
    if file.read(len(HEADER)) != HEADER:
        raise InputError(str(path), "no archive's journal")


def _records(file: BinaryIO, path: Path, texts: bool) -> Iterator[Entry]:
    _test_header(file, path)
    return entries_from(file, len(HEADER), str(path), texts)


def entries_from(file: BinaryIO, gate: int, path: str, texts: bool) -> Iterator[Entry]:
    """The entries from a gate on, at which the file stands. Each one's `after` is the next gate."""
    while file.read(1) == _OPEN:
        size = int.from_bytes(file.read(4), "big")
        body, gate = gate + 5, gate + 5 + size
        head = file.read(min(size, 13))
        tag = head[0] if head else 0
        rest = size - len(head)
        if tag == _PLAN:
            yield Entry(tag, 0, 0, b"", _plan(head + file.read(rest), path), body + len(head), rest)
            continue
        if tag == _MARK:
            yield Entry(tag, 0, 0, b"", at=body + len(head), size=rest)
            continue
        if tag == _BATCH:
            yield Entry(tag, 0, 0, b"", at=body + len(head), size=rest, acts=tuple(_acts(file, head, body, texts)))
            continue
        text = file.read(rest) if texts else b""
        if not texts:
            file.seek(rest, 1)
        doc, time = int.from_bytes(head[1:5], "big"), int.from_bytes(head[5:13], "big")
        yield Entry(tag, doc, time, text, at=body + len(head), size=rest)


def _acts(file: BinaryIO, begin: bytes, body: int, texts: bool) -> Iterator[Entry]:
    """The changes of a batch that begins with these bytes, behind which the file stands."""
    ahead, at = begin[5:], body + 5
    for _ in range(_number(begin, 1, 4)):
        head = ahead + file.read(_HEAD.size - len(ahead))
        if len(head) < _HEAD.size:
            return
        length, tag, doc, time = _HEAD.unpack(head)
        size, ahead = length + 4 - _HEAD.size, b""
        text = file.read(size) if texts else b""
        if not texts:
            file.seek(size, 1)
        yield Entry(tag, doc, time, text, at=at + _HEAD.size, size=size)
        at += 4 + length


def _plan(body: bytes, path: str) -> StoredPlan:
    """What a plan's entry says, behind its tag and layout."""
    try:
        kind, at = body[2], 3
        since, at = (_number(body, at, 8), at + 8) if kind == 3 else (0, at)
        over, under, horizon = _number(body, at, 4), _number(body, at + 4, 4), _number(body, at + 8, 8)
        end = at + 17 + body[at + 16]
        form = _KINDS[kind].format(over, under, since)
        segments = list(_SEGMENT.iter_unpack(body[end + 4 :]))
        places = {page: size for _, page, size in segments if size}
        reach = max((_PAGE * page + size for page, size in places.items()), default=0)
        return StoredPlan(body[at + 17 : end].decode(), form, horizon, len(segments), frozenset(places), reach)
    except (IndexError, KeyError, UnicodeDecodeError, struct.error):
        raise InputError(path, "a plan's entry can't be read") from None


def _number(body: bytes | mmap.mmap, at: int, size: int) -> int:
    return int.from_bytes(body[at : at + size], "big")


def pages_size(folder: Path) -> int:
    return _size(folder / PAGES)


def live_plans(folder: Path) -> dict[str, StoredPlan]:
    """By key the plan of each word that has one."""
    return {entry.plan.word: entry.plan for entry in entries(folder, texts=False) if entry.plan}


@dataclass
class Summary:
    """Counts of a journal's entries."""

    #: A batch is one of them.
    entries: int = 0
    arrivals: int = 0
    deletions: int = 0
    plans: int = 0
    documents: int = 0
    alive: int = 0
    first: int | None = None
    last: int | None = None
    journal: int = 0
    pages: int = 0
    #: By key the live plans of a word, one of each archive.
    live: dict[str, list[StoredPlan]] = field(default_factory=dict)

    def add(self, other: Summary) -> None:
        """Takes in the counts of an archive of other documents."""
        self.entries += other.entries
        self.arrivals += other.arrivals
        self.deletions += other.deletions
        self.plans += other.plans
        self.documents += other.documents
        self.alive += other.alive
        self.journal += other.journal
        self.pages += other.pages
        for word, plans in other.live.items():
            self.live.setdefault(word, []).extend(plans)
        self.first = min((time for time in (self.first, other.first) if time is not None), default=None)
        self.last = max((time for time in (self.last, other.last) if time is not None), default=None)


def summary(shards: Iterable[Shard]) -> Summary:
    """What the archives hold that are on this machine."""
    held = Summary()
    for shard in shards:
        if shard.is_here:
            held.add(_summary(shard.folder))
    return held


def _size(path: Path) -> int:
    return path.stat().st_size if path.exists() else 0


def _summary(folder: Path) -> Summary:
    found = Summary(journal=_size(folder / JOURNAL), pages=_size(folder / PAGES))
    alive: dict[int, bool] = {}
    if not found.journal:
        return found
    for entry in _entries(folder, texts=False):
        found.entries += 1
        if entry.plan:
            found.plans += 1
            found.live[entry.plan.word] = [entry.plan]
        for act in entry.acts or (entry,):
            if not act.changes:
                continue
            found.arrivals += act.arrives
            found.deletions += act.deletes
            alive[act.doc] = act.arrives
            found.first = act.time if found.first is None else found.first
            found.last = act.time
    found.documents = len(alive)
    found.alive = sum(alive.values())
    return found
