"""Packets, in which the entries of an archive go to another one that follows it."""

from __future__ import annotations

from typing import BinaryIO, Iterator

#: No entry has more bytes.
MOST_BODY = 67_108_864


class BadPacket(Exception):
    """What begins at this byte is no packet, or the entry in it can't be taken."""


def packet(number: int, body: bytes) -> bytes:
    return number.to_bytes(8, "big") + len(body).to_bytes(4, "big") + body


def packets(source: BinaryIO) -> Iterator[tuple[int, int, bytes]]:
    """The number and the body of each packet, behind the place of its first byte."""
    at = 0
    while number := source.read(8):
        if len(number) < 8 or not any(number):
            raise BadPacket(at)
        length = source.read(4)
        size = int.from_bytes(length, "big")
        if len(length) < 4 or size > MOST_BODY:
            raise BadPacket(at)
        body = source.read(size)
        if len(body) < size:
            raise BadPacket(at)
        yield at, int.from_bytes(number, "big"), body
        at += 12 + size
