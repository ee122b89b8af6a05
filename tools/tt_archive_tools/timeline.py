"""What a word's list looked like over time, and what a question for it costs at each time."""

from __future__ import annotations

from dataclasses import dataclass
from html import escape
from typing import Iterable, Sequence

from . import commands, svg
from .collection import Collection
from .errors import NotBuilt, ToolError
from .journal import summary
from .replies import Hit, Pieces, Rows, Span
from .times import DAY, LAST_TIME, show_day, show_time
from .words import key_of

#: Of a word without a plan that is shown, a picture asks for the cost at so many times at most.
_MOST_QUESTIONS = 300
#: Where the program can't tell the spans, the word is looked for at so many times.
_SAMPLES = 120
#: From each time on, until the next, a number.
Steps = tuple[tuple[int, int], ...]

#: Of the changes that fall on one mark so many are named.
_MOST_TOLD = 8


@dataclass(frozen=True)
class Move:
    """A version in which the word's count changed."""

    time: int
    doc: int
    before: int
    after: int


@dataclass(frozen=True)
class Timeline:
    """A word over time. Counts and costs hold from their time until the next."""

    word: str
    first: int
    last: int
    counts: Steps
    costs: Steps
    moves: tuple[Move, ...]
    #: The postings of the whole list, which a question reads without a plan; None where unknown.
    whole: int | None
    horizons: tuple[int, ...]
    #: Every change is there, not only what some times show.
    exact: bool


def gather(collection: Collection, word: str) -> Timeline:
    """Asks the archive for the word's spans, and for the cost wherever it may change."""
    last = collection.last_time()
    if last is None:
        raise ToolError("the archive has no version yet")
    plans = _plans(collection, word)
    horizons = _horizons(collection, word, plans)
    try:
        spans = [row for row in collection.ask_rows(commands.between(0, LAST_TIME, word)).rows if isinstance(row, Span)]
    except NotBuilt:
        return _sampled(collection, word, last, horizons)
    if not spans:
        raise ToolError(f"no document ever had the word {word!r}")
    moves = moves_of(spans)
    changes = sorted({move.time for move in moves})
    end = max(last, changes[-1])
    times = _some(sorted({*changes, *horizons, end}), _MOST_QUESTIONS)
    costs = sums_of([_costs(collection, side, word, plan, times) for side, plan in enumerate(plans)])
    return Timeline(word, changes[0], end, counts_of(moves), costs, moves, len(spans), horizons, True)


def _plans(collection: Collection, word: str) -> list[Pieces | None]:
    """The plan that each archive shows for the word."""
    try:
        replies = collection.ask_all(commands.certificate(word))
    except NotBuilt:
        return [None for _ in collection.shards]
    return [reply if isinstance(reply, Pieces) and reply.segments else None for reply in replies]


def _costs(collection: Collection, side: int, word: str, plan: Pieces | None, times: Sequence[int]) -> Steps:
    """What one archive reads: by its plan the segment that holds a time, and its list from the horizon on."""

    def read(time: int) -> int:
        return collection.rows_of(collection.ask_side(side, commands.find(time, word))).read

    if plan is None:
        return tuple((time, read(time)) for time in times)
    horizon = plan.segments[-1].end
    return (*((segment.start, segment.size) for segment in plan.segments), (horizon, read(horizon)))


def sums_of(parts: Sequence[Steps]) -> Steps:
    """The sum over the parts, each of which is 0 before its first time."""
    sums: dict[int, int] = {}
    for part in parts:
        before = 0
        for time, value in part:
            sums[time] = sums.get(time, 0) + value - before
            before = value
    total = 0
    steps = []
    for time in sorted(sums):
        total += sums[time]
        steps.append((time, total))
    return tuple(steps)


def moves_of(spans: Sequence[Span]) -> tuple[Move, ...]:
    """The changes of count that the spans show, in order of time."""
    moves = []
    for index, span in enumerate(spans):
        earlier = spans[index - 1] if index else None
        touches = earlier is not None and earlier.doc == span.doc and earlier.end == span.start
        moves.append(Move(span.start, span.doc, earlier.score if touches and earlier else 0, span.score))
        later = spans[index + 1] if index + 1 < len(spans) else None
        goes_on = later is not None and later.doc == span.doc and later.start == span.end
        if not goes_on and span.end < LAST_TIME:
            moves.append(Move(span.end, span.doc, span.score, 0))
    return tuple(sorted(moves, key=lambda move: (move.time, move.doc)))


def counts_of(moves: Sequence[Move]) -> Steps:
    """In how many documents the word stands from each time on."""
    counts: dict[int, int] = {}
    count = 0
    for move in moves:
        count += (move.after > 0) - (move.before > 0)
        counts[move.time] = count
    return tuple(counts.items())


def _sampled(collection: Collection, word: str, last: int, horizons: tuple[int, ...]) -> Timeline:
    first = summary(collection.shards).first or 0
    times = sorted({first + (last - first) * k // _SAMPLES for k in range(_SAMPLES + 1)})
    found: list[tuple[int, Rows]] = [(time, collection.ask_rows(commands.find(time, word))) for time in times]
    if not any(rows.read for _, rows in found):
        raise ToolError(f"no document ever had the word {word!r}")
    counts = tuple((time, sum(isinstance(row, Hit) for row in rows.rows)) for time, rows in found)
    costs = tuple((time, rows.read) for time, rows in found)
    return Timeline(word, first, last, counts, costs, (), None, horizons, False)


def _horizons(collection: Collection, word: str, plans: Iterable[Pieces | None]) -> tuple[int, ...]:
    """The horizons of the word's plans that stand. A plan that the program doesn't show is in the journal."""
    horizons = {plan.segments[-1].end for plan in plans if plan}
    if not horizons:
        live = summary(collection.shards).live.get(key_of(word), ())
        horizons = {plan.horizon for plan in live}
    return tuple(sorted(horizons))


def _some(times: Sequence[int], most: int) -> list[int]:
    if len(times) <= most:
        return list(times)
    return sorted({times[(len(times) - 1) * k // (most - 1)] for k in range(most)})


def draw(line: Timeline, collection: Collection) -> str:
    """The picture: documents, changes and cost over one time axis."""
    picture = svg.Picture(960, 520, f"The word {line.word!r} over time")
    margin = max((line.last - line.first) // 30, 1)
    x = svg.Scale(line.first - margin, line.last + margin, 70, 930)
    end = line.last + margin
    picture.text(70, 28, f"“{line.word}”, {_days(line)} (UTC)", size=17)
    svg.time_axis(picture, x, 70, 470)

    most = svg.number_ticks(max(count for _, count in line.counts))
    y = svg.Scale(0, most[-1], 220, 70)
    svg.axes(picture, x, y, most, "documents with the word")
    corners = svg.steps(line.counts, end, x, y)
    picture.area(corners, 220, svg.BLUE)
    picture.path(corners, svg.BLUE)

    heading = [("versions in which that changed: ", svg.INK)]
    kinds = [("it comes", svg.GREEN), (", its count changes", svg.FAINT), (", it goes", svg.RED)]
    picture.words(70, 258, heading + (kinds if line.exact else [("not known to this program", svg.FAINT)]))
    _draw_moves(picture, line, x, collection)
    _draw_costs(picture, line, x, end)
    _draw_horizons(picture, line.horizons, x)
    return picture.render()


def _days(line: Timeline) -> str:
    first, last = show_day(line.first), show_day(line.last)
    return first if first == last else f"{first} to {last}"


def _draw_moves(picture: svg.Picture, line: Timeline, x: svg.Scale, collection: Collection) -> None:
    """A mark for the changes of one kind that fall on one place of the picture."""
    marks: dict[tuple[float, str], list[Move]] = {}
    for move in line.moves:
        kind = svg.GREEN if move.before == 0 else svg.RED if move.after == 0 else svg.FAINT
        marks.setdefault((round(x(move.time)), kind), []).append(move)
    tops = {svg.GREEN: 266, svg.FAINT: 273, svg.RED: 280}
    for (place, kind), moves in marks.items():
        tips = [
            f"{show_time(move.time)} {collection.names.shown(move.doc)}: {move.before} to {move.after}"
            for move in moves[:_MOST_TOLD]
        ]
        if len(moves) > _MOST_TOLD:
            tips.append(f"and {len(moves) - _MOST_TOLD} more")
        picture.mark(place, tops[kind], tops[kind] + 12, kind, "\n".join(tips))


def _draw_costs(picture: svg.Picture, line: Timeline, x: svg.Scale, end: int) -> None:
    highest = max([cost for _, cost in line.costs] + [line.whole or 0])
    ticks = svg.number_ticks(highest)
    y = svg.Scale(0, ticks[-1], 470, 335)
    svg.axes(picture, x, y, ticks, "postings that a question reads")
    if line.whole is not None:
        picture.path([(x(line.first), y(line.whole)), (x(end), y(line.whole))], svg.ORANGE, 'stroke-dasharray="6 4"')
    picture.path(svg.steps(line.costs, end, x, y), svg.BLUE)
    most = max(cost for _, cost in line.costs)
    stands = f"with the plan that stands: up to {most}" if line.horizons else "as the archive stands"
    legend = [(stands, svg.BLUE, "")]
    if line.whole is not None:
        legend.append((f"without a plan: {line.whole}", svg.ORANGE, 'stroke-dasharray="6 4"'))
    picture.legend(70, 510, legend)


def _draw_horizons(picture: svg.Picture, horizons: Sequence[int], x: svg.Scale) -> None:
    """An upright line for the horizon of each archive's plan, and above the last one the days."""
    for horizon in horizons:
        picture.line(x(horizon), 54, x(horizon), 470, svg.INK, 'stroke-dasharray="2 3"')
    if horizons:
        show = show_day if x.high - x.low > 4 * DAY else show_time
        first, last = show(horizons[0]), show(horizons[-1])
        label = f"horizon {last}" if first == last else f"horizons {first} to {last}"
        anchor = "end" if x(horizons[-1]) > 300 else "start"
        picture.text(x(horizons[-1]), 48, label, anchor, svg.INK, 11)


def page(line: Timeline, picture: str, collection: Collection) -> str:
    """A page with the picture, and the changes as a table."""
    rows = "\n".join(
        f"<tr><td>{show_time(move.time)}</td><td>{escape(collection.names.shown(move.doc))}</td>"
        f"<td>{move.before}</td><td>{move.after}</td></tr>"
        for move in line.moves
    )
    word = escape(line.word)
    return f"""<!DOCTYPE html>
<html lang="en"><head><meta charset="utf-8"><title>{word} over time</title>
<style>body {{ font-family: system-ui, sans-serif; margin: 2rem; color: {svg.INK}; }}
svg {{ max-width: 100%; height: auto; }} td, th {{ padding: 0.1rem 1rem 0.1rem 0; text-align: left; }}</style></head>
<body>
{picture}
<table><thead><tr><th>from</th><th>document</th><th>count before</th><th>after</th></tr></thead>
<tbody>
{rows}
</tbody></table>
</body></html>
"""
