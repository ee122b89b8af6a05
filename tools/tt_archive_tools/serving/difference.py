"""What a version changed: lines, and within a line that was changed the words."""

from __future__ import annotations

import re
from difflib import SequenceMatcher
from typing import Iterator, NamedTuple, Sequence, Union

#: Lines around a change.
_AROUND = 2
#: Of longer texts no difference is made; the words within lines are compared in pairs of so many, and so many in all.
MOST_LINES = 4_000
_MOST_WORDS = 2_000
_MOST_WORDS_IN_ALL = 40_000
#: From so many lines on, lines that stand often aren't used to find what is the same.
_OFTEN = 2_000
_WORD = re.compile(r"\w+|\W")


class Piece(NamedTuple):
    """A part of a line; `changed` where the other version has another one in its place."""

    text: str
    changed: bool


class Hunk(NamedTuple):
    """Where a stretch of lines lies in the later version: from a line on, up to another one."""

    first: int
    last: int


class Line(NamedTuple):
    """A line of both versions (" "), of the one before ("-"), or of this one ("+")."""

    sign: str
    pieces: Sequence[Piece]


def difference(before: str, after: str) -> Iterator[Union[Hunk, Line]]:
    """The lines that differ with those around them, each stretch behind its place."""
    old, new = _lines(before), _lines(after)
    words_left = _MOST_WORDS_IN_ALL
    matcher = SequenceMatcher(None, old, new, autojunk=len(old) + len(new) > _OFTEN)
    for group in matcher.get_grouped_opcodes(_AROUND):
        yield Hunk(group[0][3] + 1, group[-1][4])
        for kind, a, b, c, d in group:
            if kind == "equal":
                yield from (Line(" ", [Piece(text, False)]) for text in new[c:d])
            elif kind == "replace" and b - a == d - c:
                for was, now in zip(old[a:b], new[c:d]):
                    pair = _WORD.findall(was), _WORD.findall(now)
                    count = len(pair[0]) + len(pair[1])
                    yield from _within(*(pair if count <= min(words_left, _MOST_WORDS) else _bounds(*pair)))
                    words_left -= min(count, words_left)
            else:
                yield from (Line("-", [Piece(text, False)]) for text in old[a:b])
                yield from (Line("+", [Piece(text, False)]) for text in new[c:d])


def is_too_long(text: str) -> bool:
    return text.count("\n") >= MOST_LINES


def _lines(text: str) -> list[str]:
    return text.removesuffix("\n").split("\n") if text else []


def _within(old: list[str], new: list[str]) -> Iterator[Line]:
    left: list[Piece] = []
    right: list[Piece] = []
    for kind, a, b, c, d in SequenceMatcher(None, old, new, autojunk=False).get_opcodes():
        left += [Piece("".join(old[a:b]), kind != "equal")] if a < b else []
        right += [Piece("".join(new[c:d]), kind != "equal")] if c < d else []
    yield Line("-", left)
    yield Line("+", right)


def _bounds(old: list[str], new: list[str]) -> tuple[list[str], list[str]]:
    """Both with what stands between the first and the last difference as one word."""
    most = min(len(old), len(new))
    start = next((place for place in range(most) if old[place] != new[place]), most)
    rest = most - start
    end = next((place for place in range(rest) if old[-1 - place] != new[-1 - place]), rest)

    def one(words: list[str]) -> list[str]:
        stop = len(words) - end
        return [part for part in ("".join(words[:start]), "".join(words[start:stop]), "".join(words[stop:])) if part]

    return one(old), one(new)
