"""The bytes of entries, and the place that shows where a journal isn't one's. What plans say is trusted."""

from __future__ import annotations

from typing import Iterator, NamedTuple

HEADER = b"TIMETRAVELTEXT\x00\x01"
OPEN, CLOSED = b"\xa5", b"\0"
ARRIVE, DELETE, PLAN, BATCH, MARK = range(1, 6)
#: No time is as late.
NOW = 1 << 40
MOST_TEXT, MOST_ACTS = 4_194_304, 1_000
THE_MARK = bytes([MARK, 0, 2])


class NotArchive(Exception):
    """The journal is none, which this byte shows."""


class Act(NamedTuple):
    """A document arrives with a text, or is deleted."""

    doc: int
    time: int
    text: bytes | None

    def spelled(self) -> bytes:
        head = bytes([DELETE if self.text is None else ARRIVE]) + self.doc.to_bytes(4, "big") + self.time.to_bytes(8, "big")
        return head + (self.text or b"")


def spelled_batch(acts: list[Act]) -> bytes:
    parts = [act.spelled() for act in acts]
    return bytes([BATCH]) + _four(len(parts)) + b"".join(_four(len(part)) + part for part in parts)


def acts_of(body: bytes, at: int = 0) -> list[Act]:
    """The acts of an entry of a change or a batch. Its body begins at a place of the journal."""
    if body[0] != BATCH:
        return [_act(body, at)]
    count = int.from_bytes(body[1:5], "big")
    if len(body) < 5 or not 1 <= count <= MOST_ACTS:
        raise NotArchive(at + 1)
    acts, end = [], 5
    for _ in range(count):
        begin, end = end, end + 4
        if len(body) < end:
            raise NotArchive(at + begin)
        begin, end = end, end + int.from_bytes(body[begin:end], "big")
        if len(body) < end:
            raise NotArchive(at + begin)
        acts.append(_act(body[begin:end], at + begin))
    if end < len(body):
        raise NotArchive(at + end)
    return acts


def _act(body: bytes, at: int) -> Act:
    """The act that all the bytes spell."""
    if not body or body[0] not in (ARRIVE, DELETE):
        raise NotArchive(at)
    if len(body) < 5:
        raise NotArchive(at + 1)
    doc, time, text = int.from_bytes(body[1:5], "big"), int.from_bytes(body[5:13], "big"), body[13:]
    if len(body) < 13 or time >= NOW:
        raise NotArchive(at + 5)
    if body[0] == DELETE:
        if text:
            raise NotArchive(at + 13)
        return Act(doc, time, None)
    try:
        text[: MOST_TEXT + 1].decode()
    except UnicodeDecodeError:
        raise NotArchive(at + 13) from None
    if len(text) > MOST_TEXT:
        raise NotArchive(at + 13)
    return Act(doc, time, text)


def records(journal: bytes) -> Iterator[tuple[int, bytes]]:
    """The bodies of a journal, each behind the place of its gate."""
    for place, byte in enumerate(HEADER):
        if journal[place] != byte:
            raise NotArchive(place)
    gate = len(HEADER)
    while journal[gate : gate + 1] == OPEN:
        end = gate + 5 + int.from_bytes(journal[gate + 1 : gate + 5], "big")
        if end >= len(journal):
            raise NotArchive(gate)
        body = journal[gate + 5 : end]
        test_tag(body, gate + 5)
        yield gate, body
        gate = end


def test_tag(body: bytes, at: int) -> None:
    """Tests that the body at a place has the tag of an entry, and where that is the mark's, spells it."""
    if not body or not ARRIVE <= body[0] <= MARK:
        raise NotArchive(at)
    if body[0] == MARK and body != THE_MARK:
        raise NotArchive(at + 1 if body[1:3] != THE_MARK[1:] else at + 3)


def _four(number: int) -> bytes:
    return number.to_bytes(4, "big")
