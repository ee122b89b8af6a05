"""Least plans and plans in bounded space, by trying all pairs of boundaries."""

from __future__ import annotations

import struct
from bisect import bisect_left, bisect_right
from dataclasses import dataclass
from typing import Callable

#: A posting: document, count, from, to.
Posting = tuple[int, int, int, int]
#: A posting's bytes in a flat sublist.
POSTING = 24
GUARANTEE, UNIFORM, SINCE = 1, 2, 3
_SEGMENT = struct.Struct(">QIQ32x")


@dataclass(frozen=True)
class Plan:
    """Cuts with the horizon last, and the sizes of the segments between them."""

    cuts: tuple[int, ...]
    sizes: tuple[int, ...]

    @property
    def space(self) -> int:
        return sum(self.sizes)

    def read_at(self, time: int) -> int:
        """What a question at a time before the horizon reads."""
        index = bisect_right(self.cuts, time) - 1
        return self.sizes[index] if index >= 0 else 0

    def read_between(self, start: int, end: int) -> int:
        pairs = zip(self.cuts, self.cuts[1:], self.sizes)
        return sum(size for left, right, size in pairs if left < end and start < right)


@dataclass(frozen=True)
class Stored:
    """A plan's entry, whose sublists are counted and lie nowhere."""

    key: str
    kind: int
    since: int
    factor: tuple[int, int]
    plan: Plan

    def encode(self) -> bytes:
        since = struct.pack(">Q", self.since) if self.kind == SINCE else b""
        word = self.key.encode()
        head = struct.pack(">IIQB", *self.factor, self.plan.cuts[-1], len(word))
        segments = b"".join(_SEGMENT.pack(cut, 0, POSTING * size) for cut, size in zip(self.plan.cuts, self.plan.sizes))
        return bytes([3, 1, self.kind]) + since + head + word + struct.pack(">I", len(self.plan.sizes)) + segments

    @staticmethod
    def decode(body: bytes) -> Stored:
        kind, at = body[2], 11 if body[2] == SINCE else 3
        over, under, horizon, length = struct.unpack_from(">IIQB", body, at)
        since = int.from_bytes(body[3:at], "big")
        end = at + 17 + length
        segments = list(_SEGMENT.iter_unpack(body[end + 4 :]))
        cuts = (*(cut for cut, _, _ in segments), horizon)
        sizes = tuple(size // POSTING for _, _, size in segments)
        return Stored(body[at + 17 : end].decode(), kind, since, (over, under), Plan(cuts, sizes))


class Table:
    """A list's boundaries and the sizes between them."""

    def __init__(self, postings: list[Posting], horizon: int) -> None:
        self.starts = sorted(posting[2] for posting in postings)
        self.ends = sorted(posting[3] for posting in postings)
        self.full = len(postings)
        self.boundaries = sorted({*self.starts, *self.ends, horizon})

    def size(self, left: int, right: int) -> int:
        """How many postings overlap the span between two times."""
        return bisect_left(self.starts, right) - bisect_right(self.ends, left)

    def plan(self, cuts: list[int]) -> Plan:
        return Plan(tuple(cuts), tuple(self.size(left, right) for left, right in zip(cuts, cuts[1:])))

    def least(self, over: int, under: int) -> tuple[Plan, list[int]]:
        """A least plan for a factor, and the least space up to each boundary."""
        times = self.boundaries
        best = [0] + [-1] * (len(times) - 1)
        back = [0] * len(times)
        for right in range(1, len(times)):
            alive = self.size(times[right - 1], times[right])
            for left in range(right - 1, -1, -1):
                alive = min(alive, self.size(times[left], times[left + 1]))
                size = self.size(times[left], times[right])
                if size * under > over * alive:
                    break
                if best[right] < 0 or best[left] + size < best[right]:
                    best[right], back[right] = best[left] + size, left
        cuts = [len(times) - 1]
        while cuts[-1]:
            cuts.append(back[cuts[-1]])
        return self.plan([times[cut] for cut in reversed(cuts)]), best

    def promises(self, stored: Stored) -> bool:
        """Whether a plan of this list is what its kind promises: with a guarantee a least one, and otherwise one in the space
        that costs as much as the best."""
        (over, under), plan = stored.factor, stored.plan
        cuts, ends = list(plan.cuts), {plan.cuts[0], plan.cuts[-1]}
        if cuts != sorted({*cuts}) or ends != {self.boundaries[0], self.boundaries[-1]} or plan != self.plan(cuts):
            return False
        if stored.kind == GUARANTEE:
            return self._keeps(plan, over, under) and plan.space == self.least(over, under)[0].space
        cost = sum(size * seconds(*span, stored.since) for *span, size in zip(plan.cuts, plan.cuts[1:], plan.sizes))
        return plan.space <= over * self.full // under and cost == self.bounded(over, under, stored.since)[1]

    def _keeps(self, plan: Plan, over: int, under: int) -> bool:
        """Whether each segment keeps to a factor, and begins at a boundary."""
        alive = {left: self.size(left, right) for left, right in zip(self.boundaries, self.boundaries[1:])}
        least = [min((alive[time] for time in alive if left <= time < right), default=0) for left, right in zip(plan.cuts, plan.cuts[1:])]
        return {*plan.cuts} <= {*self.boundaries} and all(size * under <= over * some for size, some in zip(plan.sizes, least))

    def bounded(self, over: int, under: int, since: int) -> tuple[Plan, int]:
        """A plan of least expected cost in bounded space, and that cost."""
        times = self.boundaries
        whole = self.full * seconds(times[0], times[-1], since)
        weighed = self.front(over, under, lambda left, right: seconds(left, right, since))
        cost, cuts = min([(whole, [times[0], times[-1]]), *weighed.values()])
        return self.plan(cuts), cost

    def front(self, over: int, under: int, weigh: Callable[[int, int], int]) -> dict[int, tuple[int, list[int]]]:
        """By charge, a plan of least cost that is charged so much: its cost and cuts. A span weighs as much as it is asked for."""
        times = self.boundaries
        step = 1 if len(times) <= 128 else -(-(len(times) - 1) // 127)
        candidates = sorted({*times[::step], times[-1]})
        unit, budget = charges(over * self.full // under)
        fronts: list[dict[int, tuple[int, list[int]]]] = [{0: (0, [candidates[0]])}]
        for right in candidates[1:]:
            front: dict[int, tuple[int, list[int]]] = {}
            for left, earlier in zip(candidates, fronts):
                size = self.size(left, right)
                cost = size * weigh(left, right)
                for charge, (before, cuts) in earlier.items():
                    total = charge + -(-size // unit)
                    if total <= budget and (total not in front or before + cost < front[total][0]):
                        front[total] = (before + cost, [*cuts, right])
            fronts.append(front)
        return fronts[-1]

    def offers(self, asked: list[int], unit: int) -> list[tuple[int, int]]:
        """What may be taken of this list, each with its charge in shared units and its cost: first the list in one piece."""

        def count(left: int, right: int) -> int:
            return sum(left <= time < right for time in asked)

        own, _ = charges(16 * self.full)
        whole = -(-self.full // unit), self.full * count(self.boundaries[0], self.boundaries[-1])
        return [whole, *((-(-charge * own // unit), cost) for charge, (cost, _) in self.front(16, 1, count).items())]


def seconds(left: int, right: int, since: int) -> int:
    """How many seconds of a span don't come before a time."""
    return max(0, right - max(left, since))


def charges(cap: int) -> tuple[int, int]:
    """The unit of a charge, in postings, and the budget in units."""
    unit = max(1, -(-cap // 4_096))
    return unit, cap // unit


def shared(tables: list[Table], asked: list[list[int]], over: int, under: int) -> tuple[int, int, list[tuple[int, int]]]:
    """The unit, the budget, and of each list the charge and the cost that a best choice takes."""
    unit, budget = charges(over * sum(table.full for table in tables) // under)
    offers = [table.offers(times, unit) for table, times in zip(tables, asked)]
    least: dict[int, tuple[int, list[tuple[int, int]]]] = {0: (0, [])}
    for points in offers:
        found: dict[int, tuple[int, list[tuple[int, int]]]] = {}
        for charged, (spent, picks) in least.items():
            for charge, cost in points:
                total, sum_of = charged + charge, spent + cost
                if total <= budget and (total not in found or sum_of < found[total][0]):
                    found[total] = sum_of, [*picks, (charge, cost)]
        least = found
    wholes = [points[0] for points in offers]
    ways = [(sum(cost for _, cost in wholes), 0, wholes), *((cost, charge, picks) for charge, (cost, picks) in least.items())]
    return unit, budget, min(ways)[2]
