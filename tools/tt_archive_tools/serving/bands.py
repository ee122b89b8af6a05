"""Pictures over time whose parts are links."""

from __future__ import annotations

from typing import Callable, Iterable, NamedTuple

from .. import svg
from ..times import show_time
from .markup import plain, short

#: The picture of a curve is cut into so many links.
BANDS = 96
_WIDTH = 960
_LEFT, _RIGHT, _TOP, _GROUND = 50, 945, 28, 120
#: Rows of names begin behind this place.
_NAMES = 300
_ROW = 22


class Bar(NamedTuple):
    """From a time until another, as dark as `share` says, with a link and what the pointer is told."""

    start: int
    end: int
    share: float
    to: str
    tip: str


class Row(NamedTuple):
    """A document's bars."""

    name: str
    to: str
    bars: Iterable[Bar]


def curve(
    window: tuple[int, int],
    number: Callable[[int, int], int],
    label: str,
    to: Callable[[int], str],
    now: int | None = None,
    columns: int = _RIGHT - _LEFT,
) -> str:
    """A number over the window: `number` tells that of a stretch. Each band leads to the time of its end."""
    first, last = window
    picture = svg.Picture(_WIDTH, 150, label)
    x = svg.Scale(first, last, _LEFT, _RIGHT)
    columns = min(columns, last - first)
    edges = [first + (last - first) * place // columns for place in range(columns + 1)]
    steps = [(start, number(start, end)) for start, end in zip(edges, edges[1:])]
    ticks = svg.number_ticks(max(count for _, count in steps))
    y = svg.Scale(0, ticks[-1], _GROUND, _TOP)
    svg.time_axis(picture, x, _TOP, _GROUND)
    svg.axes(picture, x, y, ticks[:: max(1, len(ticks) // 4)], label)
    corners = _corners(steps, last, x, y)
    picture.area(corners, _GROUND, svg.BLUE)
    picture.path(corners, svg.BLUE)
    for band in range(min(BANDS, columns)):
        start, end = (first + (last - first) * place // min(BANDS, columns) for place in (band, band + 1))
        tip = f"{show_time(start)} to {show_time(end)}: {number(start, end)}"
        shape = _rect(x(start), _TOP, x(end) - x(start), _GROUND - _TOP, svg.ORANGE, 0, tip)
        picture.parts.append(_link(to(end), shape, by_keyboard=False))
    if now is not None:
        picture.line(x(now), _TOP - 4, x(now), _GROUND + 4, svg.ORANGE, 'stroke-width="2"')
    return picture.render()


def bars(window: tuple[int, int], rows: list[Row], label: str, colour: str) -> str:
    """A line for each document."""
    height = 22 + _ROW * len(rows)
    picture = svg.Picture(_WIDTH, height + 24, label)
    x = svg.Scale(*window, _NAMES, _RIGHT)
    svg.time_axis(picture, x, 8, height)
    for place, row in enumerate(rows):
        top = 14 + _ROW * place
        text = f'<text x="{_NAMES - 10}" y="{top + 12}" text-anchor="end" font-size="12" fill="#0b57d0">{plain(short(row.name))}</text>'
        picture.parts.append(_link(row.to, text))
        for bar in row.bars:
            width = max(x(bar.end) - x(bar.start), 1.5)
            shape = _rect(x(bar.start), top, width, 16, colour, bar.share, f"{row.name}: {bar.tip}")
            picture.parts.append(_link(bar.to, shape, by_keyboard=False))
    return picture.render()


def _corners(steps: list[tuple[int, int]], last: int, x: svg.Scale, y: svg.Scale) -> list[tuple[float, float]]:
    """The corners of the line, without those in the midst of a level stretch."""
    turns = [step for place, step in enumerate(steps) if not place or step[1] != steps[place - 1][1]]
    return svg.steps(turns, last, x, y)


def _rect(x: float, y: float, width: float, height: float, colour: str, opacity: float, tip: str) -> str:
    return (
        f'<rect x="{x:.1f}" y="{y}" width="{width:.1f}" height="{height}" fill="{colour}" '
        f'fill-opacity="{opacity:.2f}"><title>{plain(tip)}</title></rect>'
    )


def _link(to: str, shape: str, by_keyboard: bool = True) -> str:
    return f'<a href="{plain(to)}"{"" if by_keyboard else " tabindex=" + chr(34) + "-1" + chr(34)}>{shape}</a>'
