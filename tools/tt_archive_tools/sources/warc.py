"""Web captures: WARC files (ISO 28500), compressed or not.

A document is an address. A capture with status 2xx and a text begins a version at its date; a
redirect, 404 or 410 says that the address has no text of its own from then on, and so does a
capture that is no text (an image, say). Other statuses say nothing of the page and are left out.
A revisit record has a status of its own, which says the same as a capture's; where it is 2xx, or the
record has none, it stands for the capture whose payload it names. What a crawler notes of itself
under `metadata:` is no page.
"""

from __future__ import annotations

from dataclasses import dataclass
from pathlib import Path
from typing import Iterator

from ..changes import Change, Notes
from ..errors import InputError
from ..spool import Place, Spool
from ..texts import Reading
from ..times import parse_stamp
from .warc_records import Record, Response, read_records, response_of

_TEXT_TYPES = {"application/xhtml+xml", "application/xml", "application/json"}
_HTML_TYPES = {"text/html", "application/xhtml+xml"}
#: What a revisit may have in place of a status that tells of the page: none, or "not modified".
_AS_BEFORE = {0, 304}
_NAMES = (".warc", ".warc.gz")
_NO_TEXT = {300, 301, 302, 303, 307, 308, 404, 410}


@dataclass(frozen=True, slots=True)
class _Capture:
    address: str
    place: str
    text: Place | None
    #: Set where the text is that of another capture with this digest.
    same_as: str | None = None
    #: The record tells no status of its own, so that of the other capture counts.
    bare: bool = False


@dataclass(frozen=True)
class WarcSource:
    """The files of one or more crawls. A folder stands for all the files in it that are named so."""

    files: tuple[Path, ...]
    prefix: str = ""

    @property
    def identity(self) -> str:
        files = sorted(str(file.resolve()) for file in self.files)
        return " ".join(part for part in ("warc", self.prefix, *files) if part)

    def changes(self, reading: Reading, notes: Notes) -> Iterator[Change]:
        captures = _Captures(reading, notes)
        for path in self._all_files():
            for record in read_records(path):
                captures.take(record)
        for time, capture in captures.spool.in_order():
            place = captures.texts.get(capture.same_as) if capture.same_as else capture.text
            if capture.same_as and capture.same_as not in captures.texts:
                gone = captures.textless.get(capture.same_as)
                if not (gone and capture.bare):
                    what = "isn't in these files" if gone is None else "has no text"
                    notes.add(f"revisit of a capture that {what}, left out", capture.place)
                    continue
            text = captures.spool.text(place) if place else None
            yield Change(time, self.prefix + capture.address, text, capture.place)

    def _all_files(self) -> Iterator[Path]:
        for path in self.files:
            if not path.is_dir():
                yield path
                continue
            found = sorted(file for file in path.rglob("*") if file.name.lower().endswith(_NAMES))
            if not found:
                raise InputError(str(path), "there is no file *.warc or *.warc.gz in it")
            yield from found


class _Captures:
    """What the records say, in a spool."""

    def __init__(self, reading: Reading, notes: Notes) -> None:
        self.spool: Spool[_Capture] = Spool()
        #: By digest the text of each payload with status 2xx; None where it is no text.
        self.texts: dict[str | None, Place | None] = {}
        #: By digest of each payload with another status, whether that says that there is no text any more.
        self.textless: dict[str | None, bool] = {}
        self._reading = reading
        self._notes = notes
        self._count = 0

    def take(self, record: Record) -> None:
        address = record.get("warc-target-uri").strip("<>")
        if record.kind not in ("response", "resource", "revisit") or not address:
            return
        if address.lower().startswith("metadata:"):
            self._notes.count("records of a crawler of itself (metadata:), left out", f"{record.place}, {address}")
            return
        if record.kind != "resource" and not record.get("content-type").lower().startswith("application/http"):
            return
        stamp = record.get("warc-date")
        time = parse_stamp(stamp)
        if time is None:
            raise InputError(record.place, f"{stamp!r} is no date")
        capture = self._capture(record, address)
        if capture:
            self._count += 1
            self._notes.read(self._count, "captures")
            self.spool.add((time, self._count), capture)

    def _capture(self, record: Record, address: str) -> _Capture | None:
        digest = record.get("warc-payload-digest") or None
        if record.kind == "resource":
            response = Response(200, record.headers, record.block)
        else:
            response = response_of(record)
        if record.kind == "revisit" and response.status in _AS_BEFORE:
            return self._revisit(record, address, digest, bare=True) if response.status == 0 else None
        if response.status in _NO_TEXT:
            kind = "captures of redirects" if response.status < 400 else "captures of what wasn't there"
            self._notes.count(kind, f"{record.place}, {address}")
            self.textless[digest] = True
            return _Capture(address, record.place, None)
        if not 200 <= response.status < 300 or response.status == 206:
            self._notes.add(f"capture with status {response.status}, left out", record.place)
            self.textless.setdefault(digest, False)
            return None
        if record.kind == "revisit":
            return self._revisit(record, address, digest, bare=False)
        text = self._text(response, record.place)
        place = None if text is None else self.spool.put(text)
        if digest:
            self.texts[digest] = place
        return _Capture(address, record.place, place)

    def _revisit(self, record: Record, address: str, digest: str | None, bare: bool) -> _Capture | None:
        """A capture with the payload of another one."""
        if digest is None:
            self._notes.add("revisit that names no capture's payload, left out", record.place)
            return None
        return _Capture(address, record.place, None, digest, bare)

    def _text(self, response: Response, place: str) -> bytes | None:
        kind, charset = response.content_type()
        if not (kind.startswith("text/") or kind in _TEXT_TYPES):
            self._notes.count(f"captures of {kind or 'no declared type'}, without a text", place)
            return None
        body = response.content()
        if body is None:
            encoding = response.get("content-encoding")
            self._notes.add(f"content encoding {encoding!r} can't be read, left without a text", place)
            return None
        return self._reading.of_bytes(body, kind in _HTML_TYPES, charset, place, self._notes)
