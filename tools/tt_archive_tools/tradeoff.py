"""Space against reading cost: what the plans of a word take and save, by factor.

With a log of questions it is what these read, and plans under a space bound are shown beside the guarantees: each is the
best for these questions.
"""

from __future__ import annotations

from bisect import bisect_left
from dataclasses import dataclass
from fractions import Fraction
from typing import Iterable, Sequence

from . import commands, svg
from .collection import Collection
from .errors import ToolError
from .questions import Asked, shares_of
from .replies import Pieces, Refused
from .times import show_day
from .wording import counted
from .words import key_of

#: Factors from 1 to 4, in eighths.
FACTORS = tuple(Fraction(k, 8) for k in range(8, 33))
#: With this factor every partition is allowed, so that the least space is the size of the list.
_ANY = Fraction((1 << 32) - 1, 1)


#: The axes go at least so far past the greatest value, which leaves room for its label.
_ROOM = 1.08
#: Left, top, right and bottom of a place in the picture.
Box = tuple[float, float, float, float]


@dataclass(frozen=True)
class Point:
    """A plan for a factor: its space, and what a question reads, over all times before the horizon or over those of a log. Of a
    plan under a space bound it isn't known what a question reads at worst."""

    factor: Fraction
    space: int
    mean: float
    worst: int | None = None


@dataclass(frozen=True)
class Tradeoff:
    """The least plans of a word; and where a log was asked, the best plans under a space bound, and how many questions count."""

    word: str
    whole: int
    horizon: int
    points: tuple[Point, ...]
    bounded: tuple[Point, ...] = ()
    asked: int = 0


def gather(collection: Collection, word: str, asked: Asked | None = None) -> Tradeoff:
    """Asks for a least plan with each factor, and behind a log for the best under a space bound, too; nothing is stored."""
    whole = _propose(collection, word, _ANY)
    horizon = max(piece.segments[-1].end for piece in whole)
    times = [time for time in asked.times().get(key_of(word), []) if time < horizon] if asked else []
    if asked and not times:
        raise ToolError(f"no question of the log asks for {word!r} before {show_day(horizon)}")
    points = tuple(_point(factor, _propose(collection, word, factor), times) for factor in FACTORS)
    bounded = tuple(_bounded(collection, word, factor, len(times)) for factor in FACTORS) if asked else ()
    return Tradeoff(word, sum(piece.space for piece in whole), horizon, points, bounded, len(times))


def _propose(collection: Collection, word: str, factor: Fraction) -> list[Pieces]:
    replies = collection.ask_all(commands.propose(word, factor.numerator, factor.denominator))
    plans = [reply for reply in replies if isinstance(reply, Pieces) and reply.segments]
    if not plans:
        refusal = next((reply.meaning for reply in replies if isinstance(reply, Refused)), "an empty reply")
        raise ToolError(f"no plan of {word!r}: {refusal}")
    return plans


def _bounded(collection: Collection, word: str, factor: Fraction, count: int) -> Point:
    """The best plan of at most so many times the list for the questions that this run was asked, so many of which count."""
    space, reads = 0, 0
    for side in range(len(collection.shards)):
        found, _ = shares_of(collection, side, (factor.numerator, factor.denominator), [word])
        if found:
            space += found.unit * found.shares[0].charge
            reads += found.cost
    return Point(factor, space, reads / count)


def _point(factor: Fraction, plans: Iterable[Pieces], times: Sequence[int]) -> Point:
    """Over several archives the sums, each from its own first boundary on; over the times of a log where there are some."""
    space, mean, worst = 0, 0.0, 0
    for plan in plans:
        space += plan.space
        worst += max(segment.size for segment in plan.segments)
        if times:
            mean += sum(segment.size * (bisect_left(times, segment.end) - bisect_left(times, segment.start)) for segment in plan.segments) / len(times)
            continue
        seconds = plan.segments[-1].end - plan.segments[0].start
        mean += sum((segment.end - segment.start) * segment.size for segment in plan.segments) / seconds
    return Point(factor, space, mean, worst)


def draw(tradeoff: Tradeoff) -> str:
    """The picture: a dot for each plan, space to the right and cost upwards."""
    picture = svg.Picture(760, 480, f"Plans for {tradeoff.word!r}")
    plans = tradeoff.points + tradeoff.bounded
    across = svg.number_ticks(_ROOM * max([point.space for point in plans] + [tradeoff.whole]))
    up = svg.number_ticks(_ROOM * max([point.mean for point in plans] + [tradeoff.whole]))
    x = svg.Scale(0, across[-1], 70, 720)
    y = svg.Scale(0, up[-1], 400, 80)
    picture.text(70, 28, f"“{tradeoff.word}”: space against reading, until {show_day(tradeoff.horizon)}", size=17)
    over = f"the {counted(tradeoff.asked, 'question')} of the log" if tradeoff.asked else "time"
    svg.axes(picture, x, y, up, f"postings that a question reads, mean over {over}")
    for value in across:
        picture.line(x(value), 80, x(value), 400, svg.GRID)
        picture.text(x(value), 416, f"{value:g}", "middle", svg.FAINT, 11)
    picture.text(720, 436, "postings that the plan takes", "end", size=13)
    groups = _alike(tradeoff.points)
    others = _alike(tradeoff.bounded)
    for some, colour in ((others, svg.GREEN), (groups, svg.BLUE)):
        if some:
            _dots(picture, some, colour, x, y)
    if others:
        picture.legend(70, 436, [("guarantee", svg.BLUE, ""), ("space bound", svg.GREEN, "")])
    whole = x(tradeoff.whole), y(tradeoff.whole)
    picture.dot(*whole, svg.ORANGE, f"without a plan: {tradeoff.whole} postings, {tradeoff.whole} read")
    picture.text(whole[0] + 8, whole[1] + 4, "no plan", colour=svg.ORANGE, size=11)
    taken = [(whole[0] - 5, whole[1] - 7, whole[0] + 55, whole[1] + 7)]
    taken += [(x(group[0].space) - 5, y(group[0].mean) - 5, x(group[0].space) + 5, y(group[0].mean) + 5) for group in others]
    for text, place in _labels([(group, (x(group[0].space), y(group[0].mean))) for group in groups], taken):
        picture.text(*place, text, size=11)
    least = "Each dot is a least plan" + (", or the best for these questions in so much space" if others else "")
    note = f"{least}, with the factors that give it; the pointer tells more."
    picture.text(70, 464, note, colour=svg.FAINT, size=12)
    return picture.render()


def _dots(picture: svg.Picture, groups: Sequence[Sequence[Point]], colour: str, x: svg.Scale, y: svg.Scale) -> None:
    """A dot for each group of plans, and the way from one to the next."""
    picture.path([(x(group[0].space), y(group[0].mean)) for group in groups], colour, 'stroke-opacity="0.5"')
    for group in groups:
        plan = group[0]
        worst = "" if plan.worst is None else f", {plan.worst} at worst"
        tip = f"{_factors(group)}: {plan.space} postings, {plan.mean:.1f} read{worst}"
        picture.dot(x(plan.space), y(plan.mean), colour, tip)


def _alike(points: Iterable[Point]) -> list[list[Point]]:
    """Neighbours with one space and cost."""
    groups: list[list[Point]] = []
    for point in points:
        if groups and (groups[-1][0].space, groups[-1][0].mean) == (point.space, point.mean):
            groups[-1].append(point)
        else:
            groups.append([point])
    return groups


def _labels(
    dots: Sequence[tuple[list[Point], tuple[float, float]]], taken: list[Box]
) -> list[tuple[str, tuple[float, float]]]:
    """The labels of whole factors and halves, and where they begin: beside their dot, where nothing stands yet."""
    places = [place for _, place in dots]
    taken += [(x - 5, y - 5, x + 5, y + 5) for x, y in places]
    for one, other in zip(places, places[1:]):
        taken += [(x, y, x, y) for x, y in _between(one, other)]
    placed = []
    for group, (x, y) in sorted(dots, key=lambda dot: _roundest(dot[0])):
        if _roundest(group) > 2:
            break
        text = _factors(group)
        width = 6.6 * len(text)
        for left, base in ((x + 7, y - 6), (x + 8, y + 4), (x - 8 - width, y + 4), (x - 7 - width, y - 6), (x + 7, y + 15)):
            box = (left, base - 9, left + width, base + 2)
            if left > 74 and box[2] < 756 and not any(_overlap(box, other) for other in taken):
                taken.append(box)
                placed.append((text, (left, base)))
                break
    return placed


def _roundest(group: list[Point]) -> int:
    """The least denominator of the factors."""
    return min(point.factor.denominator for point in group)


def _between(one: tuple[float, float], other: tuple[float, float]) -> list[tuple[float, float]]:
    """Places on the way from one dot to another, a few units apart."""
    count = 1 + int(max(abs(other[0] - one[0]), abs(other[1] - one[1])) / 4)
    return [(one[0] + (other[0] - one[0]) * k / count, one[1] + (other[1] - one[1]) * k / count) for k in range(count)]


def _overlap(one: Box, other: Box) -> bool:
    return one[0] < other[2] and other[0] < one[2] and one[1] < other[3] and other[1] < one[3]


def _factors(group: Sequence[Point]) -> str:
    first, last = float(group[0].factor), float(group[-1].factor)
    return f"{first:g}" if first == last else f"{first:g} to {last:g}"
