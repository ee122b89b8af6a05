"""The words of a query in a text: which runs they are, and the pieces of text around them."""

from __future__ import annotations

import re
from typing import AbstractSet, Iterator, NamedTuple

from .words import key_of, runs

_SPACES = re.compile(r"\s+")


class Part(NamedTuple):
    """A part of a text; `found` where it is one of the words."""

    text: str
    found: bool


def parts(text: str, keys: AbstractSet[str]) -> Iterator[Part]:
    """The text in parts."""
    end = 0
    for run in _found(text, keys):
        if run.start() > end:
            yield Part(text[end : run.start()], False)
        yield Part(run[0], True)
        end = run.end()
    if end < len(text):
        yield Part(text[end:], False)


def pieces(text: str, keys: AbstractSet[str], around: int = 40, most: int = 3) -> list[list[Part]]:
    """The first pieces of the text that have a word, each with so many characters around; none begins before
    the end of another, and a word that stands in an earlier one makes none."""
    found: list[list[Part]] = []
    end = 0
    for run in _found(text, keys):
        if run.start() < end:
            continue
        if len(found) == most:
            break
        start, end = max(end, _from(text, run.start() - around)), _until(text, run.end() + around)
        piece = ("…" if start else "") + _SPACES.sub(" ", text[start:end]).strip() + ("…" if end < len(text) else "")
        found.append(list(parts(piece, keys)))
    return found


def _found(text: str, keys: AbstractSet[str]) -> Iterator[re.Match[str]]:
    return (run for run in runs(text) if key_of(run[0]) in keys)


def _from(text: str, at: int) -> int:
    """A place at or behind this one at which no word is cut."""
    if at <= 0:
        return 0
    space = _SPACES.search(text, at - 1)
    return space.end() if space and space.end() <= at + 20 else at


def _until(text: str, at: int) -> int:
    """A place at or before this one at which no word is cut."""
    if at >= len(text):
        return len(text)
    cut = max(text.rfind(space, at - 20, at + 1) for space in " \n\t")
    return cut if cut > 0 else at
