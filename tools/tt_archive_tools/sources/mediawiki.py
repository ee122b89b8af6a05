"""A MediaWiki export: pages with their revisions, and a log of moves and deletions.

A document is a title. Files that hold revisions (`pages-meta-history`) and files that hold the log
(`pages-logging`) can be given together. A revision begins at its timestamp, under the title that its
page had then, whatever the order in the file. A move ends the old title, and begins the new one; a
deletion ends the title; a restoration brings back its newest revision. A redirect has no text of its
own. Texts stay wikitext.
"""

from __future__ import annotations

import bz2
import gzip
import re
import xml.etree.ElementTree as ElementTree
from contextlib import closing
from dataclasses import dataclass, field
from enum import Enum
from pathlib import Path
from typing import BinaryIO, Iterator

from ..changes import Change, Notes
from ..errors import InputError
from ..spool import Place, Spool
from ..texts import Reading
from ..times import parse_stamp
from .mediawiki_titles import Titles, target_of

_REDIRECT = re.compile(r"\s*#\s*(\w+)\s*:?\s*\[\[")
_ENDINGS = {"delete", "delete_redir", "delete_redir2"}


_LOST = "pages that the log deletes, and of which the export has nothing"
_NO_LOG = (
    "there is no log among the files: pages have their last title throughout, and nothing is known of deletions "
    "(`dumpBackup.php --logs` or pages-logging has it)"
)
_NO_MOVES = "the log has no moves; where pages were moved all the same, they have their last title throughout"


#: Within a second the log's entries count before revisions, each as they are numbered.
_LOG, _REVISIONS = 0, 1


class _Kind(Enum):
    DELETED = 0
    RESTORED = 1
    MOVED = 2
    REVISED = 3


@dataclass(frozen=True, slots=True)
class _Event:
    kind: _Kind
    title: str
    number: int
    text: Place | None = None
    #: The word of `#REDIRECT [[..]]`, in whatever language, where the text begins so.
    redirect: str | None = None
    #: Where a page was moved to.
    target: str = ""


@dataclass
class _Dump:
    """What the files hold."""

    spool: Spool[_Event] = field(default_factory=Spool)
    titles: Titles = field(default_factory=Titles)
    redirect_words: set[str] = field(default_factory=lambda: {"redirect"})
    log_entries: int = 0
    moves: int = 0


@dataclass
class _Wiki:
    """What stands under each title, event by event."""

    newest: dict[str, bytes | None] = field(default_factory=dict)
    deleted: dict[str, bytes | None] = field(default_factory=dict)
    #: The titles that pages were moved from, where a redirect may be of which nothing is left.
    moved_from: set[str] = field(default_factory=set)
    #: The titles that were deleted, and were unknown before.
    lost: set[str] = field(default_factory=set)

    def delete(self, title: str) -> None:
        if title in self.newest:
            self.deleted[title] = self.newest.pop(title)
        elif title not in self.deleted and title not in self.moved_from:
            self.lost.add(title)

    def restore(self, title: str) -> bool:
        """Whether that brings back a text. Where a page is there, it has the newest one."""
        if title in self.newest or title not in self.deleted:
            return False
        self.newest[title] = self.deleted.pop(title)
        return True

    def move(self, title: str, target: str) -> bool:
        if title not in self.newest:
            return False
        self.newest[target] = self.newest.pop(title)
        self.moved_from.add(title)
        return True


@dataclass(frozen=True)
class MediaWikiSource:
    """The files of one wiki."""

    files: tuple[Path, ...]
    keep_redirects: bool = False
    prefix: str = ""

    @property
    def identity(self) -> str:
        files = sorted(str(file.resolve()) for file in self.files)
        return " ".join(part for part in ("mediawiki", self.prefix, *files) if part)

    def changes(self, reading: Reading, notes: Notes) -> Iterator[Change]:
        dump = _Dump()
        for path in self.files:
            _read(path, dump, notes)
        if not dump.moves:
            notes.tell(_NO_MOVES if dump.log_entries else _NO_LOG)
        wiki = _Wiki()
        for time, event in dump.spool.in_order():
            place = f"{event.title} ({'revision' if event.kind is _Kind.REVISED else 'log entry'} {event.number})"
            title = event.title
            match event.kind:
                case _Kind.REVISED:
                    title = dump.titles.at(title, time)
                    wiki.newest[title] = self._text(event, dump, notes)
                case _Kind.RESTORED:
                    if not wiki.restore(title):
                        continue
                case _Kind.MOVED:
                    if not wiki.move(title, event.target):
                        continue
                    notes.count("moves of pages", place)
                    yield Change(time, self.prefix + title, None, place)
                    title = event.target
                case _Kind.DELETED:
                    wiki.delete(title)
            yield Change(time, self.prefix + title, wiki.newest.get(title), place)
        for title in sorted(wiki.lost):
            notes.count(_LOST, title)

    def _text(self, event: _Event, dump: _Dump, notes: Notes) -> bytes | None:
        if event.redirect in dump.redirect_words and not self.keep_redirects:
            notes.count("redirects, without a text of their own", f"{event.title} (revision {event.number})")
            return None
        return dump.spool.text(event.text) if event.text else None


def _read(path: Path, dump: _Dump, notes: Notes) -> None:
    with closing(_open(path)) as stream:
        reader = _Reader(path, dump, notes)
        try:
            for event, element in ElementTree.iterparse(stream, events=("start", "end")):
                reader.take(event, element)
        except ElementTree.ParseError as error:
            line, column = error.position
            what = f"no XML: {error.msg.partition(':')[0]}{reader.where()}"
            raise InputError(f"{path}:{line}:{column + 1}", what) from None
        except (EOFError, OSError) as error:
            raise InputError(str(path), f"it can't be read on{reader.where()}: {error}") from None
        if not reader.found:
            raise InputError(str(path), "there is no page and no log entry of a MediaWiki export")


def _open(path: Path) -> BinaryIO:
    try:
        with open(path, "rb") as file:
            magic = file.read(3)
        if magic[:2] == b"\x1f\x8b":
            return gzip.open(path, "rb")
        if magic == b"BZh":
            return bz2.open(path, "rb")
        return open(path, "rb")
    except OSError as error:
        raise InputError(str(path), error.strerror or str(error)) from None


class _Reader:
    """Takes the elements of one file as they end, and forgets them."""

    def __init__(self, path: Path, dump: _Dump, notes: Notes) -> None:
        self._path = path
        self._dump = dump
        self._notes = notes
        self._root: ElementTree.Element | None = None
        self._title = ""
        self._redirects = False
        self._newest: tuple[int, str | None] = (-1, None)
        self.found = False

    def where(self) -> str:
        return f", behind page {self._title!r}" if self._title else ""

    def take(self, event: str, element: ElementTree.Element) -> None:
        if self._root is None:
            self._root = element
        if event == "start":
            return
        match _tag(element):
            case "title":
                self._title = (element.text or "").strip()
                self._newest = (-1, None)
                self._redirects = False
            case "redirect":
                self._redirects = True
            case "revision":
                self.found = True
                self._revision(element)
                element.clear()
            case "page":
                self.found = True
                if self._redirects and self._newest[1]:
                    self._dump.redirect_words.add(self._newest[1])
                self._root.clear()
            case "logitem":
                self.found = True
                self._log_entry(element)
                self._root.clear()

    def _revision(self, element: ElementTree.Element) -> None:
        number = _number(_text_of(element, "id"))
        place = f"{self._path}: page {self._title!r}, revision {number}"
        time = _time(element, place)
        text = _child(element, "text")
        if text is None or text.get("deleted") is not None:
            self._notes.add("revision whose text is hidden, left out", place)
            return
        if text.text is None and int(text.get("bytes") or 0) > 0:
            raise InputError(place, "the dump has no texts (take pages-meta-history, not stub-meta-history)")
        content = text.text or ""
        redirect = _REDIRECT.match(content)
        word = redirect[1].lower() if redirect else None
        self._newest = max(self._newest, (time, word), key=lambda pair: pair[0])
        self._notes.read(len(self._dump.spool), "revisions and log entries")
        event = _Event(_Kind.REVISED, self._title, number, self._dump.spool.put(content.encode()), word)
        self._dump.spool.add((time, _REVISIONS, number), event)

    def _log_entry(self, element: ElementTree.Element) -> None:
        self._dump.log_entries += 1
        kind = _kind(_text_of(element, "type"), _text_of(element, "action"))
        title = _text_of(element, "logtitle")
        if kind is None or not title:
            return
        number = _number(_text_of(element, "id"))
        time = _time(element, f"{self._path}: log entry {number}")
        target = target_of(_text_of(element, "params")) if kind is _Kind.MOVED else ""
        if kind is _Kind.MOVED:
            if not target:
                self._notes.add("move without a target, left out", f"{self._path}: log entry {number}")
                return
            self._dump.moves += 1
            self._dump.titles.moved((time, number), title, target)
        self._dump.spool.add((time, _LOG, number), _Event(kind, title, number, target=target))


def _kind(type: str, action: str) -> _Kind | None:
    """What a log's entry does to a page; None where that is nothing."""
    if type == "move":
        return _Kind.MOVED
    if type != "delete":
        return None
    return _Kind.DELETED if action in _ENDINGS else _Kind.RESTORED if action == "restore" else None


def _tag(element: ElementTree.Element) -> str:
    return element.tag.rpartition("}")[2]


def _child(element: ElementTree.Element, name: str) -> ElementTree.Element | None:
    return next((child for child in element if _tag(child) == name), None)


def _text_of(element: ElementTree.Element, name: str) -> str:
    child = _child(element, name)
    return (child.text or "").strip() if child is not None else ""


def _number(text: str) -> int:
    return int(text) if text.isascii() and text.isdigit() else 0


def _time(element: ElementTree.Element, place: str) -> int:
    stamp = _text_of(element, "timestamp")
    time = parse_stamp(stamp)
    if time is None:
        raise InputError(place, f"{stamp!r} is no timestamp")
    return time
