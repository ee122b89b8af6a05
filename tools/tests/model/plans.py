"""Lists of words, and which plans of them are best."""

from __future__ import annotations

from bisect import bisect_left, bisect_right
from dataclasses import dataclass
from typing import Callable, Iterable, TypeVar

from .base import MOST_BOUNDARIES, Differs, Refused

T = TypeVar("T")
GUARANTEE, UNIFORM, SINCE = 1, 2, 3


@dataclass(frozen=True)
class Posting:
    """A document has a word so often in a longest span of time."""

    document: int
    frequency: int
    start: int
    end: int


def stretches(changes: Iterable[tuple[int, T | None]], start: int, end: int) -> list[tuple[int, int, T]]:
    """The longest spans of the times from `start` on and before `end` with one value, where each value holds from its time on
    to the next one's."""
    found = []
    since, held = start, None
    for time, value in [*changes, (end, None)]:
        time = min(max(time, start), end)
        if value != held:
            if held is not None and since < time:
                found.append((since, time, held))
            since, held = time, value
    return found


def near_postings(postings: list[Posting], tolerance: tuple[int, int]) -> list[Posting]:
    """The longest-first approximation of a list: each posting is as long as it can be, and has the least frequency that is near all
    that it stands for. (The frequencies near one are those that differ from it by at most its part, rounded down.)"""
    part, whole = tolerance
    short: list[Posting] = []
    greatest = 0
    for it in postings:
        least, most = it.frequency - it.frequency * part // whole, it.frequency + it.frequency * part // whole
        if short and (short[-1].document, short[-1].end) == (it.document, it.start):
            both = max(short[-1].frequency, least), min(greatest, most)
            if both[0] <= both[1]:
                short[-1] = Posting(it.document, both[0], short[-1].start, it.end)
                greatest = both[1]
                continue
        short.append(Posting(it.document, least, it.start, it.end))
        greatest = most
    return short


class Line:
    """A word's list up to a horizon, as a plan sees it. Its spans are pairs of times."""

    def __init__(self, postings: list[Posting], horizon: int) -> None:
        self._starts = sorted(it.start for it in postings)
        self._ends = sorted(it.end for it in postings)
        self.boundaries = sorted({*self._starts, *self._ends, horizon})
        self.full = len(postings)

    def size(self, start: int, end: int) -> int:
        """How many postings have a time in a span."""
        return bisect_left(self._starts, end) - bisect_right(self._ends, start)

    def keeps(self, start: int, end: int, factor: tuple[int, int]) -> bool:
        """Whether a segment keeps the factor at each of its times."""
        inside = self.boundaries[bisect_left(self.boundaries, start) : bisect_left(self.boundaries, end) + 1]
        alive = min(self.size(*span) for span in zip(inside, inside[1:]))
        return self.size(start, end) * factor[1] <= factor[0] * alive

    def least(self, factor: tuple[int, int]) -> list[int]:
        """For each boundary the least space of a plan up to there. (A longer segment keeps no factor that a shorter one in it
        doesn't.)"""
        least = [0]
        for last, end in enumerate(self.boundaries[1:], 1):
            best = None
            for first in reversed(range(last)):
                start = self.boundaries[first]
                if not self.keeps(start, end, factor):
                    break
                space = least[first] + self.size(start, end)
                best = space if best is None else min(best, space)
            least.append(best)
        return least

    def candidates(self) -> list[int]:
        """Where a plan under a space bound may cut."""
        count = len(self.boundaries) - 1
        step = 1 if len(self.boundaries) <= 128 else -(-count // 127)
        return sorted({*self.boundaries[::step], self.boundaries[-1]})

    def cost(self, start: int, end: int, since: int) -> int:
        """The postings that are read if each second of a segment that doesn't come before `since` is asked for once."""
        return self.size(start, end) * max(0, end - max(start, since))

    def charges(self, factor: tuple[int, int]) -> tuple[int, int]:
        """The unit in which segments are charged, and the budget in units."""
        cap = factor[0] * self.full // factor[1]
        unit = max(1, -(-cap // 4_096))
        return unit, cap // unit

    def cheapest(self, factor: tuple[int, int], since: int) -> int:
        """The least expected cost of the plans that are compared under a space bound."""
        front = self.front(factor, lambda start, end: self.cost(start, end, since))
        return min([self.cost(self.boundaries[0], self.boundaries[-1], since), *front.values()])

    def front(self, factor: tuple[int, int], cost_of: Callable[[int, int], int]) -> dict[int, int]:
        """The charges at which the least cost of the plans that cut at candidates falls, with that cost."""
        unit, budget = self.charges(factor)
        cuts = self.candidates()
        fronts: list[dict[int, int]] = [{0: 0}]  # of each candidate: the least cost of plans up to there, by their charge
        for last, end in enumerate(cuts[1:], 1):
            found: dict[int, int] = {}
            for first, start in enumerate(cuts[:last]):
                charge, cost = -(-self.size(start, end) // unit), cost_of(start, end)
                for charged, spent in fronts[first].items():
                    if charged + charge <= budget:
                        found[charged + charge] = min(found.get(charged + charge, cost + spent), cost + spent)
            fronts.append({})
            for charge in sorted(found):
                if all(found[charge] < it for it in fronts[-1].values()):
                    fronts[-1][charge] = found[charge]
        return fronts[-1]


def test_width(line: Line) -> None:
    if len(line.boundaries) > MOST_BOUNDARIES:
        raise Refused(f"9 TooWide {len(line.boundaries)}")


def test_segments(line: Line, kind: int, factor: tuple[int, int], since: int, segments: list[tuple[int, int]]) -> None:
    """Holds that these segments are a best plan of a list."""
    cuts = [*(it[0] for it in segments), line.boundaries[-1]]
    if not segments or [*zip(cuts, cuts[1:])] != segments or cuts[0] != line.boundaries[0] or sorted(set(cuts)) != cuts:
        raise Differs(f"{segments} don't cut the times from {line.boundaries[0]} to {line.boundaries[-1]}")
    space = sum(line.size(*it) for it in segments)
    if kind == GUARANTEE:
        if not set(cuts) <= set(line.boundaries) or not all(line.keeps(*it, factor) for it in segments):
            raise Differs(f"{segments} don't keep the factor {factor}")
        if space != line.least(factor)[-1]:
            raise Differs(f"{segments} take {space} postings, and {line.least(factor)[-1]} are enough")
        return
    unit, budget = line.charges(factor)
    charge = sum(-(-line.size(*it) // unit) for it in segments)
    if len(segments) > 1 and (not set(cuts) <= set(line.candidates()) or charge > budget):
        raise Differs(f"{segments} aren't compared under the bound {factor}")
    cost = sum(line.cost(*it, since) for it in segments)
    if cost != line.cheapest(factor, since):
        raise Differs(f"{segments} cost {cost}, and {line.cheapest(factor, since)} is the least")


def told(line: Line, factor: tuple[int, int], segments: list[tuple[int, int]]) -> list[str]:
    """How a plan with a guarantee is shown, with its certificate."""
    sizes = [line.size(*it) for it in segments]
    return [
        *("segment %d %d %d" % (*span, size) for span, size in zip(segments, sizes)),
        *(f"node {time} {least}" for time, least in zip(line.boundaries, line.least(factor))),
        f"end {len(segments)} space {sum(sizes)}",
    ]
