"""What is around each page: its head, the form, the ways to look, and what a question doesn't say."""

from __future__ import annotations

from dataclasses import dataclass, field
from typing import AbstractSet, Callable, TypeVar

from ..errors import ToolError
from ..queries import hints, scoring_keys
from ..times import LAST_TIME, show_time
from .addresses import Asked, address
from .markup import plain
from .standing import Standing
from .versions import Versions

T = TypeVar("T")

#: The ways to look at what a question finds.
_VIEWS = (("/find", "at a time"), ("/between", "over time"), ("/heat", "heat map"), ("/changes", "what changed"), ("/names", "names"))
_PAGE = """<!DOCTYPE html>
<html lang="en"><head><meta charset="utf-8"><meta name="viewport" content="width=device-width, initial-scale=1">
<title>{title}</title><link rel="stylesheet" href="/page.css"><link rel="icon" href="/favicon.ico" type="image/svg+xml">
<script src="/page.js" defer></script></head>
<body><a class="skip" href="#answer">to the answer</a>
<header><a class="home" href="/"><bdi>{home}</bdi></a>{form}</header>
<main id="answer" tabindex="-1">{notes}{body}</main></body></html>
"""


@dataclass
class Page:
    """One request's page under way."""

    archive: Standing
    asked: Asked
    #: The way to look that the form is of.
    view: str = "/find"
    keys: AbstractSet[str] = field(init=False)

    def __post_init__(self) -> None:
        self.versions: Versions = self.archive.versions
        self.query = self.asked.word("q")
        try:
            self.keys = scoring_keys(self.query)
        except RecursionError:
            self.keys = frozenset()

    @property
    def at(self) -> int:
        return self.asked.time("at")

    def shown(self, doc: int) -> str:
        return self.archive.names.shown(doc)

    def rendered(self, title: str, body: str) -> str:
        notes = "".join(f'<p class="note">{plain(hint)}.</p>' for hint in hints(self.query))
        home = plain(self.archive.folder.resolve().name)
        return _PAGE.format(title=plain(title), home=home, form=self._form(), notes=notes, body=body)

    def _form(self) -> str:
        action = self.view if self.view in ("/between", "/heat") else "/find"
        fields = self._window() if action != "/find" else self._moment()
        return (
            f'<form action="{action}" role="search"><label class="skip" for="q">words</label>'
            f'<input type="search" id="q" name="q" value="{plain(self.query)}" maxlength="2000" '
            f'placeholder="bridge not (ferry or toll)"><button>Ask</button>{fields}</form>'
            f'<nav class="tabs" aria-label="ways to look">{"".join(map(self._tab, _VIEWS))}</nav>'
        )

    def _tab(self, view: tuple[str, str]) -> str:
        path, text = view
        here = ' aria-current="page"' if path == self.view else ""
        to = address(path, q=self.query, part=self.query, at=_or(self._at, LAST_TIME))
        if not self.query and path not in ("/changes", "/names"):
            to = "/"
        return f'<a href="{plain(to)}"{here}>{text}</a>'

    def _at(self) -> int:
        return self.at

    def _moment(self) -> str:
        """The time asked for: a field for words, and the slider over the time that is shown."""
        versions = self.versions
        first, last = _or(lambda: shown_window(self), (versions.first, versions.last))
        at = _or(self._at, LAST_TIME)
        written = self.asked.word("at") if self.asked.words.get("by") != "slide" else ""
        value = _or(lambda: "" if self.at >= LAST_TIME else show_time(self.at), written)
        kept = "".join(
            f'<input type="hidden" name="{key}" value="{plain(self.asked.word(key))}">'
            for key in ("from", "to")
            if self.view == "/find" and self.asked.path == "/find" and self.asked.word(key)
        )
        return (
            f'<label>at <input id="at" name="at" size="20" value="{plain(value)}" placeholder="now"></label>{kept}'
            f'<input type="range" id="slide" name="slide" min="{first}" max="{last}" step="1" '
            f'value="{min(max(at, first), last)}" aria-label="time, from the first change to the last">'
            '<noscript><button name="by" value="slide">Take the slider’s time</button></noscript>'
        )

    def _window(self) -> str:
        first = show_time(self.versions.first)
        return (
            f'<label>from <input name="from" size="20" value="{plain(self.asked.word("from"))}" placeholder="{first}"></label>'
            f'<label>to <input name="to" size="20" value="{plain(self.asked.word("to"))}" placeholder="now"></label>'
        )


def shown_window(page: Page) -> tuple[int, int]:
    """The time that the picture of a page and its slider show: all, or what is asked for."""
    versions = page.versions
    start, end = page.asked.time("from", versions.first), min(page.asked.time("to", versions.last), LAST_TIME)
    if start >= end:
        return versions.first, max(versions.last, versions.first + 1)
    return start, end


def _or(value: Callable[[], T], other: T) -> T:
    """A value of the request; of a request that can't be read another one, so that the form stands in each page."""
    try:
        return value()
    except ToolError:
        return other
