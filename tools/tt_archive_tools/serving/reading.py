"""The pages of one document: its text at a time, and what a version changed."""

from __future__ import annotations

from ..errors import ToolError
from ..times import show_time
from .addresses import address
from .difference import MOST_LINES, Hunk, Line, difference, is_too_long
from .frame import Page
from .markup import marked, moment, name, plain

_KINDS = {" ": "", "-": ' class="old"', "+": ' class="new"'}


class NotThere(ToolError):
    """There is no such document, or no such version."""


def text(page: Page) -> str:
    doc, shown = _document(page)
    [found] = page.archive.texts([(doc, page.at)])
    number = page.versions.at(doc, page.at)
    if found is None:
        return page.rendered(shown, f"{_head(page, shown, doc, number, '/text')}<p class=\"note\">{_none(page, doc, number)}</p>")
    body = f'{_head(page, shown, doc, number, "/text")}<pre dir="auto">{marked(found, page.keys)}</pre>'
    return page.rendered(shown, body)


def plain_text(page: Page) -> str | None:
    """The text alone, or None where there is none."""
    doc, _ = _document(page)
    [found] = page.archive.texts([(doc, page.at)])
    return found


def diff(page: Page) -> str:
    doc, shown = _document(page)
    versions = page.versions.of(doc)
    number = page.versions.at(doc, page.at)
    if number is None:
        raise NotThere(f"{shown} has no version at {show_time(page.at)}")
    times = [versions[number].time] + ([versions[number - 1].time] if number else [])
    new, old = (page.archive.texts([(doc, time) for time in times]) + [None])[:2]
    head = _head(page, shown, doc, number, "/diff")
    if is_too_long(new or "") or is_too_long(old or ""):
        links = " and ".join(_plain(shown, time) for time in reversed(times))
        return page.rendered(shown, f'{head}<p class="note">A version has more than {MOST_LINES:,} lines: read {links}.</p>')
    lines = "".join(_line(page, line) for line in difference(old or "", new or ""))
    ended = "" if versions[number].arrives else '<p class="note">The document ends with this.</p>'
    return page.rendered(f"{shown}: what changed", f'{head}{ended}<pre class="diff">{lines or "<span>nothing</span>"}</pre>')


def _document(page: Page) -> tuple[int, str]:
    try:
        doc = page.archive.number(page.asked.word("doc"))
    except ToolError as error:
        raise NotThere(str(error)) from None
    return doc, page.shown(doc)


def _head(page: Page, shown: str, doc: int, number: int | None, path: str) -> str:
    """The document's name, what is shown of it, and the ways to its other versions."""
    if number is None:
        return f"<h1>{name(shown)}</h1>"
    versions = page.versions.of(doc)
    since = versions[number].time
    if path == "/text":
        what = address("/diff", doc=shown, at=since, q=page.query)
        told = f'as it was at {moment(page.at)}, since {moment(since)} · <a href="{plain(what)}">what this version changed</a>'
    else:
        what = address("/text", doc=shown, at=since, q=page.query)
        was = f"from {moment(versions[number - 1].time)} to {moment(since)}" if number else f"the first version, at {moment(since)}"
        told = f'{was} · <a href="{plain(what)}">the whole text</a>'
    if versions[number].arrives:
        told += f" · {_plain(shown, since, 'plain text')}"
    return f'<h1>{name(shown)}</h1><p class="meta">{told}</p>{_ways(page, shown, doc, number, path)}'


def _plain(shown: str, time: int, label: str = "") -> str:
    return f'<a href="{plain(address("/text.txt", doc=shown, at=time))}">{label or moment(time)}</a>'


def _ways(page: Page, shown: str, doc: int, number: int, path: str) -> str:
    versions = page.versions.of(doc)

    def way(rel: str, to: int) -> str:
        time = versions[to].time
        label = f"← {moment(time)}" if rel == "prev" else f"{moment(time)} →"
        return f'<a rel="{rel}" href="{plain(address(path, doc=shown, at=time, q=page.query))}">{label}</a>'

    before = way("prev", number - 1) if number else "<span>the first version</span>"
    after = way("next", number + 1) if number + 1 < len(versions) else "<span>the last version</span>"
    return f'<nav class="versions">{before}<span>version {number + 1} of {len(versions)}</span>{after}</nav>'


def _none(page: Page, doc: int, number: int | None) -> str:
    """Why there is no text at a time, and where there is one."""
    versions = page.versions.of(doc)
    if not versions:
        return f"There is no text at {moment(page.at)}."

    def there(time: int) -> str:
        to = address("/text", doc=page.shown(doc), at=time, q=page.query)
        return f'<a href="{plain(to)}">{moment(time)}</a>'

    if number is None:
        return f"There is no text yet at {moment(page.at)}: the first one is of {there(versions[0].time)}."
    last = max((version.time for version in versions[:number] if version.arrives), default=versions[0].time)
    return f"There is no text at {moment(page.at)}. It ended at {moment(versions[number].time)}; the last one is of {there(last)}."


def _line(page: Page, line: Hunk | Line) -> str:
    if isinstance(line, Hunk):
        return f'<span class="hunk">lines {line.first} to {line.last}</span>' if line.last >= line.first else '<span class="hunk">no line</span>'
    tag = {"-": "del", "+": "ins"}.get(line.sign, "")
    whole = len(line.pieces) == 1
    parts = []
    for piece in line.pieces:
        if piece.changed and not whole:
            parts.append(f"<{tag}>{plain(piece.text)}</{tag}>")
        else:
            parts.append(marked(piece.text, page.keys))
    return f"<span{_KINDS[line.sign]}>{line.sign} {''.join(parts)}</span>"
