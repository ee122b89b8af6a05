"""From the bytes of an input to the text that the archive keeps, which is UTF-8."""

from __future__ import annotations

import codecs
import re
from dataclasses import dataclass
from posixpath import splitext

from .changes import Notes

REPLACED = "bytes that aren't UTF-8 and whose character set isn't known, replaced"
MISDECLARED = "bytes that are declared as utf-8 and aren't, replaced"
BINARY = "binary, so without a text"

#: Of so many bytes the first zero byte shows that they are no text, which is git's rule.
_LOOKED_AT = 8_000
_MARKS = ((codecs.BOM_UTF8, "utf-8-sig"), (codecs.BOM_UTF16_LE, "utf-16"), (codecs.BOM_UTF16_BE, "utf-16"))
#: What is declared so is read as pages mean it (WHATWG Encoding, labels of windows-1252).
_AS_WINDOWS = {"iso8859-1", "ascii"}
#: In these the bytes of a text may look like UTF-8 and mean something else.
_UNLIKE_UTF8 = re.compile(r"(?:iso2022|hz|utf-16|utf-32|utf-7)", re.ASCII)
_META = re.compile(
    rb"""<meta[^>]+charset\s*=\s*["']?\s*([A-Za-z0-9_.:-]+)|<\?xml[^>]+encoding\s*=\s*["']([A-Za-z0-9_.:-]+)""",
    re.IGNORECASE,
)
_HTML_NAMES = {".html", ".htm", ".xhtml"}


@dataclass(frozen=True)
class Reading:
    """How the texts of an import are read."""

    #: The character set of what isn't UTF-8 and doesn't declare its own.
    charset: str | None = None
    #: HTML is kept as it is.
    keep_html: bool = False

    def of_file(self, data: bytes, name: str, place: str, notes: Notes) -> bytes | None:
        """The text of a file, by its name; None where it has none."""
        return self.of_bytes(data, splitext(name)[1].lower() in _HTML_NAMES, None, place, notes)

    def of_bytes(
        self, data: bytes, html: bool, declared: str | None, place: str, notes: Notes
    ) -> bytes | None:
        """The text of bytes that may declare a character set; None where they are no text."""
        if html and declared is None:
            declared = _declared_within(data)
        text = decode(data, declared or self.charset, place, notes)
        if text is None:
            return None
        if html and not self.keep_html:
            from .html_text import text_of_html  # loaded where it is needed

            text = text_of_html(text)
        return text.encode()


def decode(data: bytes, declared: str | None, place: str, notes: Notes) -> str | None:
    """The bytes as text: UTF-8 where they are, otherwise by the declared character set, otherwise
    with what isn't UTF-8 replaced. None where they are binary."""
    for mark, codec in _MARKS:
        if data.startswith(mark):
            return data.decode(codec, "replace")
    codec = _codec(declared)
    if codec and _UNLIKE_UTF8.match(codec):
        return _by_codec(data, codec, place, notes)
    if b"\0" in data[:_LOOKED_AT]:
        notes.add(BINARY, place)
        return None
    try:
        return data.decode("utf-8")
    except UnicodeDecodeError:
        pass
    if codec and codec != "utf-8":
        return _by_codec(data, codec, place, notes)
    notes.add(MISDECLARED if codec else REPLACED, place)
    return data.decode("utf-8", "replace")


def _by_codec(data: bytes, codec: str, place: str, notes: Notes) -> str:
    notes.count(f"texts decoded as {codec}", place)
    text = data.decode(codec, "replace")
    if "\N{REPLACEMENT CHARACTER}" in text:
        notes.add(f"bytes that aren't {codec}, replaced", place)
    return text


def _codec(declared: str | None) -> str | None:
    """Python's name of a declared character set, or None where there is none or it is unknown."""
    if not declared:
        return None
    try:
        found = codecs.lookup(declared.strip().strip("\"'"))
        "".encode(found.name)  # refuses codecs that are no character sets
    except (LookupError, ValueError):
        return None
    return "cp1252" if found.name in _AS_WINDOWS else found.name


def _declared_within(data: bytes) -> str | None:
    """The character set that a page declares in its first bytes."""
    found = _META.search(data[:4_096])
    return (found[1] or found[2]).decode("ascii") if found else None
