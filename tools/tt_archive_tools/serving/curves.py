"""How many documents matched from each time on."""

from __future__ import annotations

from bisect import bisect_right
from typing import Iterable, NamedTuple, Sequence

from ..replies import Hit, Span
from ..times import LAST_TIME


class Curve(NamedTuple):
    """A count from each time on until the next; 0 before the first."""

    times: Sequence[int]
    counts: Sequence[int]

    def at(self, time: int) -> int:
        place = bisect_right(self.times, time) - 1
        return self.counts[place] if place >= 0 else 0

    def most(self, start: int, end: int) -> int:
        """The greatest count from one time until another."""
        first, last = bisect_right(self.times, start), bisect_right(self.times, end - 1)
        return max(self.at(start), *self.counts[first:last]) if first < last else self.at(start)


def curve_of(rows: Iterable[Hit | Span]) -> Curve:
    """Of rows by document and start. Spans of one document that touch are one."""
    moves: dict[int, int] = {}
    before = (-1, -1)
    for row in rows:
        assert isinstance(row, Span)
        if before == (row.doc, row.start):
            moves[row.start] += 1
        else:
            moves[row.start] = moves.get(row.start, 0) + 1
        moves[row.end] = moves.get(row.end, 0) - 1
        before = row.doc, row.end
    count = 0
    times, counts = [], []
    for time in sorted(moves):
        count += moves[time]
        if time < LAST_TIME and (not counts or counts[-1] != count):
            times.append(time)
            counts.append(count)
    return Curve(times, counts)
