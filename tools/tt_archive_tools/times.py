"""Times as people write them, and as the archive has them: whole seconds since 1970-01-01 UTC."""

from __future__ import annotations

import re
from datetime import datetime, timedelta, timezone

from .errors import ToolError

#: Every time is below this number, which stands for "until now".
NOW = 1 << 40
#: The last time that can be asked about.
LAST_TIME = NOW - 1
DAY = 86_400

_EPOCH = datetime(1970, 1, 1, tzinfo=timezone.utc)
_DATE = re.compile(
    r"(\d{4})(?:-(\d{2})(?:-(\d{2})(?:[T ](\d{2}):(\d{2})(?::(\d{2}))?(?:Z| ?([+-])(\d{2}):?(\d{2}))?)?)?)?\Z", re.ASCII
)
_LENGTH = re.compile(r"(\d{1,9}(?:\.\d{1,9})?)([smh]?)\Z", re.ASCII)
_UNITS = {"": 1, "s": 1, "m": 60, "h": 3_600}
_SECONDS = re.compile(r"@(\d{1,13})\Z", re.ASCII)
_STAMP = re.compile(
    r"(\d{4})-?(\d{2})-?(\d{2})"
    r"(?:[T_ ]?(\d{2})[:.-]?(\d{2})(?:[:.-]?(\d{2})(?:\.\d+)?)?(?:Z|\+00:?00)?)?\Z",
    re.ASCII,
)


def parse_time(text: str) -> int:
    """A time on the command line: a date, a date and time, `@SECONDS`, or `now`.

    `2007` is the first second of that year and `2007-07` of that month. All are of UTC, but where a
    time ends with how far its clocks are ahead of UTC, as in `2007-07-23T14:30:00+02:00`.
    """
    if text == "now":
        return LAST_TIME
    seconds = _SECONDS.match(text)
    if seconds:
        return _in_range(int(seconds[1]), text)
    date = _DATE.match(text)
    if not date:
        raise ToolError(
            f"{text!r} is no time: write 2007-07-23, 2007-07-23T12:30:00 (of UTC), 2007-07-23T14:30:00+02:00, @SECONDS or now"
        )
    *parts, sign, hours, minutes = date.groups()
    year, month, day, hour, minute, second = (
        int(part) if part else default for part, default in zip(parts, (0, 1, 1, 0, 0, 0))
    )
    ahead = _ahead(text, sign, int(hours), int(minutes)) if sign else 0
    return _in_range(_seconds_of(text, year, month, day, hour, minute, second) - ahead, text)


def parse_wait(text: str) -> float:
    """A length of time on the command line, in seconds: `60s`, `5m`, `1h`, or a number of seconds."""
    length = _LENGTH.match(text)
    if not length:
        raise ToolError(f"{text!r} is no length of time: write 60s, 5m or 1h")
    return float(length[1]) * _UNITS[length[2]]


def parse_stamp(text: str) -> int | None:
    """The time that an input gives a version (`2007-07-23`, `20070723123000`,
    `2007-07-23T12:30:00Z`), which may lie before 1970; None where the text is no such time."""
    stamp = _STAMP.match(text)
    if not stamp:
        return None
    parts = [int(part) if part else 0 for part in stamp.groups()]
    try:
        return _seconds_of(text, *parts)
    except ToolError:
        return None


def show_time(seconds: int) -> str:
    """A time as text: a date where it is a midnight, otherwise a date and time of UTC."""
    if seconds >= LAST_TIME:
        return "now"
    try:
        moment = _EPOCH + timedelta(seconds=seconds)
    except OverflowError:
        return f"@{seconds}"
    return moment.strftime("%Y-%m-%d" if seconds % DAY == 0 else "%Y-%m-%dT%H:%M:%SZ")


def show_at(seconds: int) -> str:
    """`at` a time, or `now`."""
    shown = show_time(seconds)
    return shown if shown == "now" else f"at {shown}"


def show_day(seconds: int) -> str:
    """The day of a time."""
    return show_time(seconds).partition("T")[0]


def _seconds_of(
    text: str, year: int, month: int, day: int, hour: int, minute: int, second: int
) -> int:
    try:
        # A leap second is the second before it.
        moment = datetime(year, month, day, hour, minute, min(second, 59), tzinfo=timezone.utc)
    except ValueError as error:
        raise ToolError(f"{text!r} is no time: {error}") from None
    return (moment - _EPOCH) // timedelta(seconds=1)


def _ahead(text: str, sign: str, hours: int, minutes: int) -> int:
    """How many seconds clocks are ahead of UTC."""
    if hours > 23 or minutes > 59:
        raise ToolError(f"{text!r} is no time: clocks are less than a day ahead of UTC or behind it, as in +02:00")
    return (hours * 3_600 + minutes * 60) * (-1 if sign == "-" else 1)


def _in_range(seconds: int, text: str) -> int:
    if not 0 <= seconds < NOW:
        raise ToolError(f"{text!r} is no time of an archive, whose times begin at 1970-01-01")
    return seconds
