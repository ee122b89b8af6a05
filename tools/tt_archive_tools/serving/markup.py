"""Text as HTML. Whatever comes from an archive or an address goes through `plain`, also into attributes."""

from __future__ import annotations

import re
from html import escape
from typing import AbstractSet, Iterable, Iterator

from ..found import Part, parts
from ..times import LAST_TIME, show_time
from ..words import key_of, runs

#: So many characters are shown on both sides of a word, in so many stretches of at most so many.
_AROUND = 70
_PIECES = 3
_MOST = 400
#: What HTML can't hold, or what a terminal or a browser would act on; shown by the pictures that Unicode has for it.
_CONTROL = re.compile("[\0-\x08\x0b-\x1f\x7f-\x9f\ud800-\udfff\ufffe\uffff]")


def plain(text: str) -> str:
    return escape(_CONTROL.sub(_shown, text))


def _shown(found: re.Match[str]) -> str:
    code = ord(found[0])
    return chr(0x2400 + code) if code < 0x20 else "\u2421" if code == 0x7F else "\ufffd"


def name(shown: str) -> str:
    """A document's name, whose direction stays its own."""
    return f"<bdi>{plain(shown)}</bdi>"


def short(text: str, most: int = 44) -> str:
    """The end of a name, which tells more than its beginning."""
    return text if len(text) <= most else "…" + text[1 - most :]


def moment(time: int) -> str:
    if time >= LAST_TIME:
        return "now"
    shown = show_time(time)
    return f'<time datetime="{shown}">{shown.replace("T", " ").replace("Z", "")}</time>'


def marked(text: str, keys: AbstractSet[str]) -> str:
    """The text, with the runs that have one of the keys marked."""
    return _parts(parts(text, keys))


def snippets(text: str, keys: AbstractSet[str]) -> str:
    """The first stretches of the text that have a word, marked; where there is none, its beginning."""
    shown = []
    for start, end in list(_stretches(text, keys)) or [(0, _bound(text, 2 * _AROUND, 1))]:
        piece = marked(" ".join(text[start:end].split()), keys)
        shown.append(("… " if start else "") + piece + (" …" if end < len(text) else ""))
    return " ".join(shown)


def _stretches(text: str, keys: AbstractSet[str]) -> Iterator[tuple[int, int]]:
    """Stretches around words; those that meet are one."""
    first = last = count = 0
    for run in runs(text):
        if key_of(run[0]) not in keys:
            continue
        start, end = _bound(text, run.start() - _AROUND, -1), _bound(text, run.end() + _AROUND, 1)
        if last and start <= last:
            last = min(end, first + _MOST)
            if run.end() > last:
                break
            continue
        if count == _PIECES:
            break
        if last:
            yield first, last
        first, last, count = start, end, count + 1
    if last:
        yield first, last


def _bound(text: str, place: int, step: int) -> int:
    """A place at or beyond this one at which no word is cut, unless it is far."""
    place = max(0, min(place, len(text)))
    for bound in range(place, place + 25 * step, step):
        if not 0 < bound < len(text):
            return max(0, min(bound, len(text)))
        if text[bound - (step < 0)].isspace():
            return bound
    return place


def _parts(some: Iterable[Part]) -> str:
    return "".join(f"<mark>{plain(part.text)}</mark>" if part.found else plain(part.text) for part in some)
