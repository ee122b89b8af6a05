"""The pages that find: the first one, at a time, over time, heat map, what changed, names, and a word's timeline."""

from __future__ import annotations

import time as clock
from bisect import bisect_left
from heapq import nsmallest

from .. import svg, timeline
from ..replies import Hit, Span
from ..times import LAST_TIME, show_time
from ..wording import counted
from ..words import folded
from . import bands
from .addresses import address
from .curves import Curve
from .frame import Page, shown_window
from .markup import moment, name, plain, snippets
from .standing import MOST_ROWS

#: Rows of one page, and lines of a picture.
ROWS = 20
_BARS = 40
_TABLE = 200
_CHANGES = 100
_NAMES = 200
#: The heat map's stretches of time.
_STRETCHES = 60


def home(page: Page) -> str:
    versions = page.versions
    if not versions.times:
        return page.rendered("Ask the archive", "<p>The archive is empty.</p>")

    def changes(start: int, end: int) -> int:
        return bisect_left(versions.times, end) - bisect_left(versions.times, start)

    window = versions.first, max(versions.last, versions.first + 1)
    picture = bands.curve(window, changes, "changes", lambda time: address("/changes", at=time), columns=bands.BANDS)
    told = (
        f"<p>{counted(len(versions), 'document')}, {counted(len(versions.times), 'change')} "
        f"from {moment(versions.first)} to {moment(versions.last)}.</p>"
    )
    return page.rendered("Ask the archive", told + picture)


def find(page: Page) -> str:
    archive, versions, at, query = page.archive, page.versions, page.at, page.query
    began = clock.perf_counter()
    rows = archive.find(query, at)
    curve = archive.curve(query)
    some = [row for row in rows.rows[page.asked.start : page.asked.start + ROWS] if isinstance(row, Hit)]
    texts = archive.texts([(row.doc, at) for row in some])
    shown = [snippets(text or "", page.keys) for text in texts]
    took = f"{1000 * (clock.perf_counter() - began):.0f} ms"
    cite = address("/find", q=query, at=min(at, versions.last), start=page.asked.start)
    stays = (
        "This answer stays as it is: its time lies before the archive’s last."
        if at < versions.last
        else "A later version may still change this answer."
    )
    told = (
        f'<p>{counted(len(rows.rows), "document")} at {moment(at)}. <span class="meta">{counted(rows.read, "posting")} read; '
        f'<span id="took">{took}</span>. <a id="cite" href="{plain(cite)}">Link to this answer</a>. {stays}</span></p>'
    )
    items = "".join(_hit(page, row, text) for row, text in zip(some, shown))
    body = f'{_curve(page, curve)}{told}<ol class="hits" start="{page.asked.start + 1}">{items}</ol>{_more(page, len(rows.rows))}'
    return page.rendered(f"{query} at {show_time(at)}", body)


def _hit(page: Page, row: Hit, text: str) -> str:
    shown, versions = page.shown(row.doc), page.versions
    to = address("/text", doc=shown, at=page.at, q=page.query)
    number = versions.at(row.doc, page.at)
    stands = ""
    if number is not None:
        since = versions.of(row.doc)[number].time
        what = address("/diff", doc=shown, at=since, q=page.query)
        until = moment(versions.end(row.doc, number))
        stands = f' · this version from {moment(since)} to {until} · <a href="{plain(what)}">what it changed</a>'
    return (
        f'<li><a class="name" href="{plain(to)}">{name(shown)}</a> <span class="meta"><span class="score">{row.score}</span> found'
        f'{stands}</span><br><span class="text">{text}</span></li>'
    )


def _more(page: Page, count: int) -> str:
    start = page.asked.start
    links = []
    for rel, text, to in (("prev", "← the rows before", max(0, start - ROWS)), ("next", "more rows →", start + ROWS)):
        if to < count if rel == "next" else start > 0:
            words = {"q": page.query, "at": page.at, "from_": page.asked.word("from"), "to": page.asked.word("to"), "start": to}
            links.append(f'<a rel="{rel}" href="{plain(address("/find", **words))}">{text}</a>')
    return f'<nav class="versions">{"".join(links)}</nav>' if links else ""


def _curve(page: Page, curve: Curve | None) -> str:
    """The picture of the question over time, the mark at the time asked, and a way closer where one stretch has most changes."""
    if curve is None:
        return f'<p class="note">No picture: the question has more than {MOST_ROWS:,} rows over time.</p>'
    if not page.versions.times:
        return ""
    first, last = shown_window(page)
    from_, to = page.asked.word("from"), page.asked.word("to")

    def there(time: int) -> str:
        return address("/find", q=page.query, at=time, from_=from_, to=to)

    at = min(page.at, page.versions.last)
    now = at if first <= at <= last else None
    picture = bands.curve((first, last), curve.most, "documents that the question finds", there, now)
    return picture + _closer(page, curve, first, last)


def _closer(page: Page, curve: Curve, first: int, last: int) -> str:
    """A link to the middle 98 % of the changes, where they fill less than half of the picture; and one back."""
    if page.asked.word("from") or page.asked.word("to"):
        return f'<p class="meta"><a href="{plain(address("/find", q=page.query, at=page.at))}">all the time</a></p>'
    count = len(curve.times)
    start, end = (curve.times[count // 100], curve.times[count - 1 - count // 100]) if count else (first, last)
    if count < 3 or end <= start or 2 * (end - start) > last - first:
        return ""
    margin = max((end - start) // 20, 1)
    to = address("/find", q=page.query, at=page.at, from_=max(start - margin, 0), to=min(end + margin, LAST_TIME - 1))
    return f'<p class="meta"><a href="{plain(to)}">closer</a>, to the time of most changes</p>'


def _spans(page: Page) -> tuple[tuple[int, int], tuple[int, int], dict[int, list[Span]], int]:
    """The window asked for, the part of it that is drawn, by document its spans, and the postings read."""
    versions = page.versions
    window = page.asked.window(versions.first)
    rows = page.archive.between(page.query, *window)
    found: dict[int, list[Span]] = {}
    for row in rows.rows:
        assert isinstance(row, Span)
        found.setdefault(row.doc, []).append(row)
    stop = min(window[1], max(versions.last, window[0] + 1))
    return window, (window[0], stop), found, rows.read


def _heaviest(found: dict[int, list[Span]], end: int) -> list[int]:
    """The documents with the most, as scores by seconds, in order."""
    weights = {doc: sum((min(span.end, end) - span.start) * span.score for span in spans) for doc, spans in found.items()}
    return nsmallest(_BARS, weights, key=lambda doc: (-weights[doc], doc))


def between(page: Page) -> str:
    window, drawn, found, read = _spans(page)
    order = _heaviest(found, drawn[1])
    top = max((span.score for spans in found.values() for span in spans), default=0) or 1
    rows = [_bars_of(page, doc, found[doc], drawn, top) for doc in order]
    count = sum(map(len, found.values()))
    told = (
        f"<p>{counted(len(found), 'document')}, {counted(count, 'span')} from {moment(window[0])} to {moment(window[1])}. "
        f'<span class="meta">{counted(read, "posting")} read. Those with most of it are first; a darker bar has more.</span></p>'
    )
    body = told + (bands.bars(drawn, rows, "when documents match", svg.BLUE) if rows else "") + _table(page, found, count)
    return page.rendered(f"{page.query} over time", body)


def _bars_of(page: Page, doc: int, spans: list[Span], drawn: tuple[int, int], top: int) -> bands.Row:
    shown = page.shown(doc)
    some = (
        bands.Bar(
            span.start, min(span.end, drawn[1]), 0.25 + 0.75 * span.score / top, address("/text", doc=shown, at=span.start, q=page.query),
            f"{span.score} found, {show_time(span.start)} to {show_time(span.end)}",
        )
        for span in spans
    )  # fmt: skip
    return bands.Row(shown, address("/text", doc=shown, at=spans[0].start, q=page.query), some)


def _table(page: Page, found: dict[int, list[Span]], count: int) -> str:
    rows = []
    for span in [span for spans in found.values() for span in spans][:_TABLE]:
        to = address("/text", doc=page.shown(span.doc), at=span.start, q=page.query)
        rows.append(
            f"<tr><td>{moment(span.start)}</td><td>{moment(span.end)}</td><td>{span.score}</td>"
            f'<td><a href="{plain(to)}">{name(page.shown(span.doc))}</a></td></tr>'
        )
    some = f" (the first {_TABLE})" if count > _TABLE else ""
    head = "<tr><th>from</th><th>to</th><th>score</th><th>document</th></tr>"
    return f"<details><summary>as a table{some}</summary><table><thead>{head}</thead><tbody>{''.join(rows)}</tbody></table></details>"


def heat(page: Page) -> str:
    """The window as documents by stretches of time."""
    _, (first, last), found, read = _spans(page)
    width = max((last - first + _STRETCHES - 1) // _STRETCHES, 1)
    cells = {doc: _cells(found[doc], first, last, width) for doc in _heaviest(found, last)}
    top = max((score for row in cells.values() for score in row.values()), default=0) or 1
    rows = []
    for doc, row in cells.items():
        shown = page.shown(doc)
        some = []
        for stretch, until, score in _runs(row):
            start, end = first + stretch * width, min(first + until * width, last)
            there = max(start, next(span.start for span in found[doc] if span.end > start))
            to = address("/text", doc=shown, at=there, q=page.query)
            some.append(bands.Bar(start, end, 0.15 + 0.85 * (score / top) ** 0.5, to, f"up to {score} from {show_time(start)}"))
        rows.append(bands.Row(shown, some[0].to if some else address("/text", doc=shown, q=page.query), some))
    told = (
        f"<p>{counted(len(found), 'document')}: the greatest score in each of {_STRETCHES} stretches of time, up to {top}. "
        f'<span class="meta">{counted(read, "posting")} read.</span></p>'
    )
    return page.rendered(f"{page.query} as a heat map", told + (bands.bars((first, last), rows, "heat map", svg.ORANGE) if rows else ""))


def _cells(spans: list[Span], first: int, last: int, width: int) -> dict[int, int]:
    """By stretch the greatest score."""
    found: dict[int, int] = {}
    for span in spans:
        for stretch in range((span.start - first) // width, (min(span.end, last) - 1 - first) // width + 1):
            found[stretch] = max(found.get(stretch, 0), span.score)
    return found


def _runs(row: dict[int, int]) -> list[tuple[int, int, int]]:
    """Stretches side by side that have one score: the first, the one behind the last, the score."""
    found: list[tuple[int, int, int]] = []
    for stretch, score in sorted(row.items()):
        if found and found[-1][1:] == (stretch, score):
            found[-1] = (found[-1][0], stretch + 1, score)
        else:
            found.append((stretch, stretch + 1, score))
    return found


def changes(page: Page) -> str:
    """The changes up to a time, the latest first."""
    versions = page.versions
    count = versions.up_to(page.at)
    rows = []
    for change in reversed(versions.changes[max(0, count - _CHANGES) : count]):
        what = "ends" if not change.arrives else "changes" if change.number and versions.of(change.doc)[change.number - 1].arrives else "begins"
        to = address("/diff", doc=page.shown(change.doc), at=change.time)
        rows.append(f'<tr><td>{moment(change.time)}</td><td>{what}</td><td><a href="{plain(to)}">{name(page.shown(change.doc))}</a></td></tr>')
    earlier = versions.changes[count - _CHANGES - 1].time if count > _CHANGES else None
    more = f'<p><a rel="prev" href="{plain(address("/changes", at=earlier))}">earlier</a></p>' if earlier is not None else ""
    told = f"<p>{counted(count, 'change')} up to {moment(page.at)}, the latest first.</p>"
    return page.rendered("What changed", f"{told}<table><tbody>{''.join(rows)}</tbody></table>{more}")


def names(page: Page) -> str:
    """The names that have a part, without regard to case and marks."""
    part = page.asked.word("part")
    wanted = folded(part)
    found = [shown for shown, key in page.archive.folded_names() if wanted in key]
    items = "".join(f'<li><a href="{plain(address("/text", doc=shown, at=page.at))}">{name(shown)}</a></li>' for shown in found[:_NAMES])
    form = (
        f'<form action="/names"><label>part of a name <input name="part" value="{plain(part)}" maxlength="500"></label>'
        "<button>List</button></form>"
    )
    told = f"<p>{counted(len(found), 'name')}{f', of which the first {_NAMES} are here' if len(found) > _NAMES else ''}.</p>"
    return page.rendered("Names", f"{form}{told}<ul>{items}</ul>")


def word(page: Page) -> str:
    """The picture that `tt timeline` draws."""
    with page.archive.asked() as collection:
        line = timeline.gather(collection, page.asked.word("word"))
        return page.rendered(f"The word {line.word}", timeline.draw(line, collection))
