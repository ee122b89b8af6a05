"""What people read: numbers of things in words, and lines on standard error."""

from __future__ import annotations

import re
import sys

_CONTROL = re.compile("[\0-\x1f\x7f-\x9f]")


def counted(count: int, what: str, many: str = "") -> str:
    """`1 version`, `2 versions`; `many` where that isn't the word with an s."""
    return f"{count} {what if count == 1 else many or what + 's'}"


def one_line(text: str) -> str:
    """The text with control characters shown as such: what inputs say goes to a terminal."""
    return _CONTROL.sub(lambda found: f"\\x{ord(found[0]):02x}", text)


def say(line: str) -> None:
    """One line on standard error, over a line of progress that stands there."""
    over = "\r\x1b[K" if sys.stderr.isatty() else ""
    print(f"{over}tt: {one_line(line)}", file=sys.stderr, flush=True)
