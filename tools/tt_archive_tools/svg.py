"""Pictures of lines and steps over a time or a number, as plain SVG."""

from __future__ import annotations

import math
from dataclasses import dataclass, field
from datetime import datetime, timedelta, timezone
from html import escape
from typing import Iterable, Sequence

from .times import DAY

FONT = "font-family=\"system-ui, 'DejaVu Sans', sans-serif\""
INK, FAINT, GRID = "#1b1f24", "#6a737d", "#e4e7eb"
BLUE, ORANGE, GREEN, RED = "#1f6feb", "#d9730d", "#1a7f37", "#cf222e"

_EPOCH = datetime(1970, 1, 1, tzinfo=timezone.utc)
_STEPS = (1, 2, 5)
#: Steps of a time axis below a month, in seconds, and how a tick of it is written.
_TIME_STEPS = (
    (1, "%H:%M:%S"), (5, "%H:%M:%S"), (15, "%H:%M:%S"), (60, "%H:%M"), (300, "%H:%M"), (900, "%H:%M"),
    (3_600, "%H:%M"), (4 * 3_600, "%d %b %H:%M"), (12 * 3_600, "%d %b %H:%M"), (DAY, "%d %b"),
    (2 * DAY, "%d %b"), (7 * DAY, "%d %b"),
)  # fmt: skip


@dataclass(frozen=True)
class Scale:
    """A straight map from values to places of the picture."""

    low: float
    high: float
    start: float
    end: float

    def __call__(self, value: float) -> float:
        width = self.high - self.low or 1
        return self.start + (value - self.low) / width * (self.end - self.start)


@dataclass
class Picture:
    """An SVG picture under way."""

    width: int
    height: int
    title: str
    parts: list[str] = field(default_factory=list)

    def line(self, x1: float, y1: float, x2: float, y2: float, colour: str, extra: str = "") -> None:
        self.parts.append(
            f'<line x1="{x1:.1f}" y1="{y1:.1f}" x2="{x2:.1f}" y2="{y2:.1f}" stroke="{colour}" {extra}/>'
        )

    def text(self, x: float, y: float, text: str, anchor: str = "start", colour: str = INK, size: int = 12) -> None:
        self.parts.append(
            f'<text x="{x:.1f}" y="{y:.1f}" text-anchor="{anchor}" fill="{colour}" font-size="{size}">'
            f"{escape(text)}</text>"
        )

    def words(self, x: float, y: float, parts: Iterable[tuple[str, str]], size: int = 13) -> None:
        """A line of text in several colours: text and colour of each part."""
        spans = "".join(f'<tspan fill="{colour}">{escape(text)}</tspan>' for text, colour in parts)
        self.parts.append(f'<text x="{x:.1f}" y="{y:.1f}" font-size="{size}" xml:space="preserve">{spans}</text>')

    def path(self, points: Sequence[tuple[float, float]], colour: str, extra: str = "") -> None:
        way = "M" + " L".join(f"{x:.1f},{y:.1f}" for x, y in points)
        self.parts.append(f'<path d="{way}" fill="none" stroke="{colour}" stroke-width="1.6" {extra}/>')

    def area(self, points: Sequence[tuple[float, float]], ground: float, colour: str) -> None:
        way = f"M{points[0][0]:.1f},{ground:.1f} L" + " L".join(f"{x:.1f},{y:.1f}" for x, y in points)
        self.parts.append(f'<path d="{way} L{points[-1][0]:.1f},{ground:.1f} Z" fill="{colour}" fill-opacity="0.15"/>')

    def mark(self, x: float, y1: float, y2: float, colour: str, tip: str) -> None:
        """A short upright line that tells more where the pointer rests."""
        self.parts.append(
            f'<line x1="{x:.1f}" y1="{y1:.1f}" x2="{x:.1f}" y2="{y2:.1f}" stroke="{colour}" stroke-width="1.5">'
            f"<title>{escape(tip)}</title></line>"
        )

    def dot(self, x: float, y: float, colour: str, tip: str) -> None:
        self.parts.append(
            f'<circle cx="{x:.1f}" cy="{y:.1f}" r="4" fill="{colour}"><title>{escape(tip)}</title></circle>'
        )

    def legend(self, x: float, y: float, entries: Iterable[tuple[str, str, str]]) -> None:
        """A row of lines with what they mean: text, colour, and attributes of the line."""
        for text, colour, extra in entries:
            self.line(x, y - 4, x + 22, y - 4, colour, f'stroke-width="2" {extra}')
            self.text(x + 28, y, text, size=12)
            x += 48 + 6.6 * len(text)

    def render(self) -> str:
        body = "\n".join(self.parts)
        return (
            f'<svg xmlns="http://www.w3.org/2000/svg" width="{self.width}" height="{self.height}" '
            f'viewBox="0 0 {self.width} {self.height}" {FONT}>\n<title>{escape(self.title)}</title>\n'
            f'<rect width="{self.width}" height="{self.height}" fill="#ffffff"/>\n{body}\n</svg>\n'
        )


def steps(values: Sequence[tuple[float, float]], end: float, x: Scale, y: Scale) -> list[tuple[float, float]]:
    """The corners of a line that keeps each value until the next."""
    corners = []
    for index, (at, value) in enumerate(values):
        until = values[index + 1][0] if index + 1 < len(values) else end
        corners += [(x(at), y(value)), (x(until), y(value))]
    return corners


def number_ticks(high: float) -> list[float]:
    """About five round numbers from 0 to past `high`."""
    rough = max(high, 1) / 4
    power = 10 ** math.floor(math.log10(rough))
    step = max(next((s * power for s in _STEPS if s * power >= rough), 10 * power), 1)
    return [step * k for k in range(int(math.ceil(max(high, 1) / step)) + 1)]


def time_ticks(low: int, high: int) -> list[tuple[int, str]]:
    """About six ticks of a time axis, at round times."""
    span = high - low
    for step, form in _TIME_STEPS:
        if span / step <= 8:
            first = -(-low // step) * step
            return [(at, _moment(at).strftime(form)) for at in range(first, high + 1, step)]
    return _month_ticks(low, high)


def _month_ticks(low: int, high: int) -> list[tuple[int, str]]:
    months = (high - low) / (30.44 * DAY)
    step = next((s for s in (1, 2, 3, 6, 12, 24, 60, 120, 240, 600, 1_200) if months / s <= 8), 6_000)
    start = _moment(low)
    count = (start.year * 12 + start.month - 1) // step * step
    ticks = []
    while count // 12 <= 9_999:
        moment = datetime(count // 12, count % 12 + 1, 1, tzinfo=timezone.utc) if count >= 12 else _EPOCH
        at = int((moment - _EPOCH).total_seconds())
        if at > high:
            break
        if at >= low:
            ticks.append((at, moment.strftime("%Y" if step % 12 == 0 else "%b %Y")))
        count += step
    return ticks


def _moment(seconds: int) -> datetime:
    return _EPOCH + timedelta(seconds=seconds)


def axes(picture: Picture, x: Scale, y: Scale, values: Sequence[float], label: str) -> None:
    """Lines across for the values, and the label above them."""
    for value in values:
        picture.line(x.start, y(value), x.end, y(value), GRID)
        picture.text(x.start - 8, y(value) + 4, f"{value:g}", "end", FAINT, 11)
    picture.text(x.start, y(values[-1]) - 10, label, size=13)


def time_axis(picture: Picture, x: Scale, top: float, bottom: float) -> None:
    """Upright lines at round times, with their dates below."""
    for at, text in time_ticks(int(x.low), int(x.high)):
        picture.line(x(at), top, x(at), bottom, GRID)
        picture.text(x(at), bottom + 16, text, "middle", FAINT, 11)
