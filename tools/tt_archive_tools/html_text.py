"""The text of a page: what a reader sees, and its title."""

from __future__ import annotations

import re
from html.parser import HTMLParser

_UNSEEN = {"script", "style", "template", "head", "svg", "object", "iframe"}
_BLOCKS = {
    "address", "article", "aside", "blockquote", "body", "br", "caption", "dd", "details", "dialog",
    "div", "dl", "dt", "fieldset", "figcaption", "figure", "footer", "form", "h1", "h2", "h3", "h4",
    "h5", "h6", "header", "hr", "html", "legend", "li", "main", "nav", "ol", "option", "p", "pre",
    "section", "summary", "table", "tbody", "tfoot", "thead", "title", "tr", "ul",
}  # fmt: skip
#: Their texts stand apart from what is beside them.
_CELLS = {"td", "th", "button", "textarea", "noscript"}
#: Tags that begin the page's body where its `head` was never closed.
_ENDS_HEAD = _BLOCKS - {"title", "html"}
_SPACES = re.compile(r"[ \t\r\f\n]+")


def text_of_html(page: str) -> str:
    """The page's text: a line for each block, without tags, scripts and styles."""
    parser = _Stripper()
    # No tag ends behind the last `>`. What begins there is left out, since the parser would try each again and again.
    whole, end, rest = page.rpartition(">")
    parser.feed(whole + end + rest.partition("<")[0])
    parser.close()
    return parser.text()


class _Stripper(HTMLParser):
    def __init__(self) -> None:
        super().__init__(convert_charrefs=True)
        self._lines: list[list[str]] = [[]]
        self._unseen: list[str] = []
        self._in_title = False
        self._preformatted = 0

    def handle_starttag(self, tag: str, attrs: list[tuple[str, str | None]]) -> None:
        if tag in _ENDS_HEAD and "head" in self._unseen:
            self._unseen.remove("head")
        if tag in _UNSEEN:
            self._unseen.append(tag)
        elif tag == "title" and self._unseen == ["head"]:
            self._in_title = True
        elif tag == "pre":
            self._preformatted += 1
        self._part(tag)

    def handle_startendtag(self, tag: str, attrs: list[tuple[str, str | None]]) -> None:
        self._part(tag)

    def handle_endtag(self, tag: str) -> None:
        if tag in self._unseen:
            del self._unseen[self._unseen.index(tag) :]
        elif tag == "title":
            self._in_title = False
        elif tag == "pre" and self._preformatted:
            self._preformatted -= 1
        self._part(tag)

    def handle_data(self, data: str) -> None:
        if self._unseen and not self._in_title:
            return
        if self._preformatted:
            first, *others = data.split("\n")
            self._lines[-1].append(first)
            self._lines.extend([line] for line in others)
        else:
            self._lines[-1].append(_SPACES.sub(" ", data))

    def text(self) -> str:
        lines = (_SPACES.sub(" ", "".join(parts)).strip() for parts in self._lines)
        return "\n".join(line for line in lines if line)

    def _part(self, tag: str) -> None:
        if tag in _BLOCKS and self._lines[-1]:
            self._lines.append([])
        elif tag in _CELLS:
            self._lines[-1].append(" ")
