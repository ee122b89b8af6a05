"""What a wiki's pages were called before: the moves of its log, followed backwards by title.

An export has each page under its title of that day alone, with all its revisions. The log tells who
moved what from where to where, by titles. So a page's earlier title is found from the last one: the
latest move whose target it is came from the title before.
"""

from __future__ import annotations

import re
from typing import NamedTuple

#: When something was done: its time, and its number in the log.
When = tuple[int, int]

_EVER = 1 << 62
_TARGET = re.compile(r's:9:"4::target";s:(\d+):"')


class _Move(NamedTuple):
    when: When
    title: str


class Titles:
    """The moves that were read."""

    def __init__(self) -> None:
        #: By target.
        self._arrivals: dict[str, list[_Move]] = {}
        self._departures: dict[str, list[When]] = {}

    def moved(self, when: When, title: str, target: str) -> None:
        self._arrivals.setdefault(target, []).append(_Move(when, title))
        self._departures.setdefault(title, []).append(when)

    def at(self, title: str, time: int) -> str:
        """What the page that an export has under this title was called at a time.

        Where the page that came by a move has left again, the one that is meant was deleted before
        that and restored later, and had the title all the while.
        """
        before: When = (_EVER, 0)
        while came := [move for move in self._arrivals.get(title, ()) if (time, _EVER) < move.when < before]:
            last = max(came)
            if any(last.when < left < before for left in self._departures.get(title, ())):
                break
            before, title = last
        return title


def target_of(params: str) -> str:
    """Where a move went: a value in PHP's form, or alone in the first line, as in older logs."""
    found = _TARGET.search(params)
    if found:  # its length is in bytes
        target = params[found.end() :].encode()[: int(found[1])].decode("utf-8", "replace")
    else:
        target = params.partition("\n")[0]
    return target.replace("_", " ").strip()
