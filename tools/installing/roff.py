"""Markdown, as far as the documents use it, as a manual page: headings, paragraphs, lists, tables, code, pictures."""

from __future__ import annotations

import re
from typing import Iterable, Sequence

_INLINE = re.compile(r"`([^`]+)`|\*\*(.+?)\*\*|(?<![\w*])\*([^*\s][^*]*)\*(?![\w*])|!?\[([^\]]*)\]\(([^)]*)\)")
_ITEM = re.compile(r"(- |\d+\. )")
_SPECIAL = {"\\": "\\e", "-": "\\-", "'": "\\(aq", "`": "\\(ga", "^": "\\(ha", "~": "\\(ti", '"': "\\(dq"}


def heading(title: str, section: str) -> str:
    return f'.TH {title} {section} "" "tt_archive"'


class Roff:
    """A page under way."""

    def __init__(self) -> None:
        self._lines: list[str] = []

    def text(self) -> str:
        return "\n".join(self._lines) + "\n"

    def line(self, line: str) -> None:
        self._lines.append(line)

    def section(self, title: str) -> None:
        self._lines.append(f'.SH "{inline(title)}"')

    def subsection(self, title: str) -> None:
        self._lines.append(f'.SS "{inline(title)}"')

    def paragraph(self, text: str) -> None:
        self._lines += [".PP", _line(inline(text))]

    def tagged(self, tag: str, text: str) -> None:
        self._lines += [".TP", f"\\fB{_plain(tag)}\\fR", _line(inline(text))]

    def code(self, lines: Iterable[str]) -> None:
        self._lines += [".PP", ".RS 4", ".nf", *(_line(_plain(line)) for line in lines), ".fi", ".RE"]

    def markdown(self, text: str) -> None:
        """A part of a document."""
        lines = text.splitlines()
        at = 0
        while at < len(lines):
            line = lines[at]
            end = at + 1
            if line.startswith("```"):
                while not lines[end].startswith("```"):
                    end += 1
                self.code(lines[at + 1 : end])
                end += 1
            elif line.startswith("|"):
                while end < len(lines) and lines[end].startswith("|"):
                    end += 1
                self._table([_cells(row) for row in lines[at:end]])
            elif line.startswith("### "):
                self.subsection(line[4:])
            elif line.startswith("## "):
                self.section(line[3:])
            elif line.strip():
                while end < len(lines) and lines[end].strip() and not _begins(lines[end]):
                    end += 1
                self._block(" ".join(part.strip() for part in lines[at:end]))
            at = end

    def _block(self, text: str) -> None:
        item = _ITEM.match(text)
        if not item:
            self.paragraph(text)
            return
        mark = "\\(bu 2" if item[1] == "- " else f"{item[1].strip()} 4"
        self._lines += [f".IP {mark}", _line(inline(text[item.end() :]))]

    def _table(self, rows: Sequence[Sequence[str]]) -> None:
        """Each row as its first cell and what the others say, with their heads where there are several."""
        heads, _, *body = rows
        for row in body:
            said = [cell for cell in row[1:] if cell]
            if len(row) > 2:
                said = [f"{head}: {cell}" if head else cell for head, cell in zip(heads[1:], row[1:]) if cell]
            self._lines += [".TP", _line(inline(row[0])) if row[0] else "\\&", _line(inline(". ".join(it.rstrip(".") for it in said) + "."))]


def _begins(line: str) -> bool:
    return bool(_ITEM.match(line)) or line.startswith(("#", "|", "```"))


def _cells(row: str) -> list[str]:
    """The cells of a table's row; a bar in code is written \\|."""
    return [cell.strip().replace("\\|", "|") for cell in re.split(r"(?<!\\)\|", row)[1:-1]]


def inline(text: str) -> str:
    """Text with code, stress and links."""
    shown, end = [], 0
    for found in _INLINE.finditer(text):
        shown.append(_plain(text[end : found.start()]))
        code, bold, slanted, label, _ = found.groups()
        if code is not None:
            shown.append(f"\\fB{_plain(code)}\\fR")
        elif bold is not None:
            shown.append(f"\\fB{_plain(bold.replace('`', ''))}\\fR")
        elif slanted is not None:
            shown.append(f"\\fI{_plain(slanted)}\\fR")
        else:
            shown.append(_plain(f"(Picture: {label})" if found[0].startswith("!") else label))
        end = found.end()
    return "".join(shown) + _plain(text[end:])


def _plain(text: str) -> str:
    return "".join(_SPECIAL.get(char) or (char if char.isascii() else f"\\[u{ord(char):04X}]") for char in text)


def _line(text: str) -> str:
    """A line that is no request."""
    return f"\\&{text}" if text.startswith((".", "\\(aq")) else text
