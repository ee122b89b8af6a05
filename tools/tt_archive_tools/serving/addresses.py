"""The addresses of pages: what each may say, and the one way to say it.

A form sends what it has. `Asked.canonical` is the address of the same answer without what is empty, with times as dates,
in one order and one spelling, so that what stands in the address bar can be cited.
"""

from __future__ import annotations

import re
from dataclasses import dataclass
from typing import Mapping
from urllib.parse import parse_qsl, quote, urlencode, urlsplit

from ..errors import ToolError
from ..times import LAST_TIME, parse_time, show_time

#: Each page and the words of its address, in order.
ROUTES: Mapping[str, tuple[str, ...]] = {
    "/": (),
    "/find": ("q", "at", "from", "to", "start"),
    "/between": ("q", "from", "to"),
    "/heat": ("q", "from", "to"),
    "/text": ("doc", "at", "q"),
    "/diff": ("doc", "at", "q"),
    "/changes": ("at",),
    "/names": ("part",),
    "/timeline": ("word",),
    "/text.txt": ("doc", "at"),
}
#: Without this word the page has nothing to show, and leads to the first.
_NEEDED = {"/find": "q", "/between": "q", "/heat": "q", "/text": "doc", "/diff": "doc", "/text.txt": "doc", "/timeline": "word"}
_TIMES = ("at", "from", "to")
_NUMBER = re.compile(r"\d{1,13}\Z", re.ASCII)
_MOST_FIELDS = 20


def address(path: str, **words: str | int | None) -> str:
    """The address of a page. Times are seconds, and now is left out; `from_` is `from`."""
    given = {key.rstrip("_"): value for key, value in words.items()}
    kept = [(key, _spelled(key, given[key])) for key in ROUTES[path] if given.get(key) not in (None, "")]
    kept = [(key, value) for key, value in kept if value]
    return path + ("?" + urlencode(kept, quote_via=quote, safe="") if kept else "")


def _spelled(key: str, value: str | int | None) -> str:
    if isinstance(value, int):
        if key in _TIMES:
            return "" if value >= LAST_TIME else show_time(value)
        return str(value) if value else ""
    return value or ""


@dataclass(frozen=True)
class Asked:
    """A request's path and words."""

    path: str
    words: Mapping[str, str]

    @staticmethod
    def of(target: str) -> Asked:
        """What is asked; a ValueError says that the address can't be read."""
        if not target.startswith("/"):
            raise ValueError(target)
        parts = urlsplit(target)
        words = parse_qsl(parts.query, keep_blank_values=True, max_num_fields=_MOST_FIELDS, errors="strict")
        return Asked(parts.path, dict(words))

    def word(self, key: str) -> str:
        text = self.words.get(key, "")
        return text if key == "doc" else text.strip(" ")

    def time(self, key: str, default: int = LAST_TIME) -> int:
        text = self._slid() if key == "at" and self.words.get("by") == "slide" else self.word(key)
        return parse_time(text) if text else default

    @property
    def start(self) -> int:
        """The first row that is shown."""
        word = self.word("start")
        return int(word) if _NUMBER.match(word) else 0

    def canonical(self) -> str:
        """The one address of what is asked; a ToolError says why there is none."""
        if self.path in _NEEDED and not self.word(_NEEDED[self.path]):
            return "/"
        words: dict[str, str | int | None] = {}
        for key in ROUTES[self.path]:
            if key in _TIMES:
                words[key.replace("from", "from_")] = self.time(key)
            else:
                words[key] = self.start if key == "start" else self.word(key)
        return address(self.path, **words)

    def window(self, first: int) -> tuple[int, int]:
        start, end = self.time("from", first), self.time("to")
        if start >= end:
            raise ToolError("the first time isn't before the second")
        return start, end

    def _slid(self) -> str:
        word = self.words.get("slide", "")
        return f"@{word}" if _NUMBER.match(word) else self.word("at")
