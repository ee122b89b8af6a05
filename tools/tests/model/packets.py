"""Packets, by which another archive can follow this one: what `--export FROM` shows, and what `--follow` reads."""

from __future__ import annotations

from struct import pack, unpack_from
from typing import Iterable

from .base import MOST_BODY

_HEAD = 12


def packets(entries: Iterable[bytes], first: int) -> bytes:
    """A packet for each of an archive's entries from that of a number on."""
    return b"".join(pack(">QI", number, len(it)) + it for number, it in enumerate(entries, 1) if number >= first)


def packet_at(stream: bytes, at: int) -> tuple[int, bytes] | None:
    """The number and the body of the packet that begins there, where it is one and is whole."""
    if len(stream) < at + _HEAD:
        return None
    number, size = unpack_from(">QI", stream, at)
    body = stream[at + _HEAD : at + _HEAD + size]
    return (number, body) if number > 0 and size <= MOST_BODY and len(body) == size else None


def first_difference(one: bytes, other: bytes) -> int:
    """The first place at which two bodies differ, or at which one of them ends."""
    return next((at for at, (left, right) in enumerate(zip(one, other)) if left != right), min(len(one), len(other)))
