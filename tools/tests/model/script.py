"""The grammar of a script: its items, and the values in their lines."""

from __future__ import annotations

import re
from dataclasses import dataclass
from datetime import date
from typing import Iterator

from .base import FOREVER, MOST_ACTS, MOST_LINE, Broken, NoCommand


@dataclass(frozen=True)
class Item:
    """A line that isn't skipped, its words, the text behind it where it is an arrival, and the items that belong to it where it
    begins a batch."""

    line: bytes
    words: list[bytes]
    text: bytes = b""
    members: tuple[Item, ...] = ()


def items(script: bytes) -> Iterator[Item]:
    """The items of a script in order; ends with `Broken` where the script is broken."""
    at = 0
    while at < len(script):
        item, at = _item(script, at)
        if item is None:
            continue
        if item.words[0] == b"batch" and _is_batch(item.words):
            item, at = _batch(script, item, at)
        yield item


def _is_batch(words: list[bytes]) -> bool:
    return len(words) == 2 and words[1].isdigit() and 1 <= int(words[1]) <= MOST_ACTS


def _batch(script: bytes, begin: Item, at: int) -> tuple[Item, int]:
    """A batch with its items, which begin at a place. The line of another batch among them is one of them by itself."""
    members: list[Item] = []
    while len(members) < int(begin.words[1]):
        if at >= len(script):
            raise Broken(len(script))
        member, at = _item(script, at)
        members += [member] if member else []
    return Item(begin.line, begin.words, members=tuple(members)), at


def _item(script: bytes, start: int) -> tuple[Item | None, int]:
    """The line that begins at a place, with its text (none where it is skipped); and where the next one begins."""
    end = script.find(b"\n", start)
    line = script[start:] if end < 0 else script[start:end].removesuffix(b"\r")
    next_line = len(script) if end < 0 else end + 1
    if len(line) > MOST_LINE:
        raise Broken(start)
    words = [it for it in line.split(b" ") if it]
    if not words or line.startswith(b"#"):
        return None, next_line
    if words[0] != b"arrive":
        return Item(line, words), next_line
    try:
        _, _, size = document_of(words[1:2]), time_of(words[2:3]), number_of(words[3:4], FOREVER)
    except NoCommand:
        raise Broken(start) from None
    if len(words) != 4 or end < 0:
        raise Broken(start)
    text, after = script[next_line : next_line + size], next_line + size
    if script[after : after + 1] == b"\n":
        return Item(line, words, text), after + 1
    if script[after : after + 2] == b"\r\n":
        return Item(line, words, text), after + 2
    raise Broken(len(script) if script[after : after + 2] in (b"", b"\r") else after)


def number_of(words: list[bytes], limit: int) -> int:
    """The number below a limit that the one word is."""
    if len(words) != 1 or not words[0].isdigit() or int(words[0]) >= limit:
        raise NoCommand
    return int(words[0])


def count_of(word: bytes, most: int) -> int:
    """How many rows are asked for, of so many at most."""
    count = number_of([word], most + 1)
    if count == 0:
        raise NoCommand
    return count


def document_of(words: list[bytes]) -> int:
    return number_of(words, 1 << 32)


def time_of(words: list[bytes]) -> int:
    if words and re.fullmatch(rb"\d{4}-\d\d-\d\d", words[0]):
        try:
            days = date.fromisoformat(words[0].decode()).toordinal() - date(1970, 1, 1).toordinal()
        except ValueError:
            raise NoCommand from None
        if days >= 0:
            return days * 86_400
    return number_of(words, FOREVER)


def factor_of(word: bytes) -> tuple[int, int]:
    over, _, under = word.partition(b"/")
    factor = number_of([over], 1 << 32), number_of([under], 1 << 32)
    if not factor[0] >= factor[1] >= 1:
        raise NoCommand
    return factor


def tolerance_of(word: bytes) -> tuple[int, int]:
    part, _, whole = word.partition(b"/")
    tolerance = number_of([part], 1 << 32), number_of([whole], 1 << 32)
    if not tolerance[0] < tolerance[1]:
        raise NoCommand
    return tolerance


def query_behind(line: bytes, count: int) -> bytes:
    """What stands behind so many words, to the last byte that isn't a space."""
    rest = line.strip(b" ")
    for _ in range(count):
        rest = rest.partition(b" ")[2].lstrip(b" ")
    rest.decode()
    return rest
