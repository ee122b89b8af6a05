"""One budget for several words, and which choices for them are best."""

from __future__ import annotations

from bisect import bisect_left

from .base import Differs
from .plans import Line

MOST_ASKED = 1 << 20


def test_shares(lines: dict[str, Line], asked: dict[str, list[int]], factor: tuple[int, int], shares: dict[str, tuple[int, int]]) -> list[str]:
    """Holds that these shares, each a charge and a cost, are a best choice for these lists, and tells them."""
    cap = factor[0] * sum(it.full for it in lines.values()) // factor[1]
    unit = max(1, -(-cap // 4_096))
    wholes, offers = {}, {}
    for key, line in lines.items():
        wholes[key], front = _offered(line, sorted(asked[key]), unit)
        offers[key] = [wholes[key], *front]
    if any(shares[key] not in offers[key] for key in lines):
        raise Differs(f"{shares} aren't among {offers}")
    if shares != wholes and sum(charge for charge, _ in shares.values()) > cap // unit:
        raise Differs(f"{shares} are charged more than {cap // unit}")
    cost, least = sum(cost for _, cost in shares.values()), min([sum(cost for _, cost in wholes.values()), *_least(offers, cap // unit)])
    if cost != least:
        raise Differs(f"{shares} cost {cost}, and {least} is the least")
    told = [f"share {key} {charge} {cost}" for key, (charge, cost) in shares.items()]
    return [*told, f"end {len(lines)} unit {unit} budget {cap // unit} cost {cost}"]


def _offered(line: Line, asked: list[int], unit: int) -> tuple[tuple[int, int], list[tuple[int, int]]]:
    """What the one piece is charged and costs, and the points of a list's own front."""

    def cost(start: int, end: int) -> int:
        return line.size(start, end) * (bisect_left(asked, end) - bisect_left(asked, start))

    own, _ = line.charges((16, 1))
    front = [(-(-charge * own // unit), least) for charge, least in line.front((16, 1), cost).items()]
    return (-(-line.full // unit), cost(line.boundaries[0], line.boundaries[-1])), front


def _least(offers: dict[str, list[tuple[int, int]]], budget: int) -> list[int]:
    """The least cost of a choice that is charged at most the budget, if there is one."""
    least = {0: 0}
    for points in offers.values():
        found: dict[int, int] = {}
        for charged, spent in least.items():
            for charge, cost in points:
                if charged + charge <= budget:
                    found[charged + charge] = min(found.get(charged + charge, cost + spent), cost + spent)
        least = found
    return [min(least.values())] if least else []
