"""The records of a WARC file, and the HTTP responses in them."""

from __future__ import annotations

import gzip
import re
import zlib
from contextlib import closing
from dataclasses import dataclass
from pathlib import Path
from typing import BinaryIO, Iterator, Mapping

from ..errors import InputError

#: Larger records are no pages.
_MOST_BLOCK = 1 << 28
_MOST_HEADER = 1 << 16
_CHARSET = re.compile(r"charset\s*=\s*[\"']?([^\s\"';]+)", re.IGNORECASE)
_STATUS = re.compile(rb"HTTP/\d(?:\.\d)?\s+(\d{3})\b")
_HEAD_END = re.compile(rb"\r?\n\r?\n")
_KEPT = {"response", "resource", "revisit"}


@dataclass(frozen=True)
class Record:
    """One record: its named fields in lower case, and its block (left out where it is no capture)."""

    headers: Mapping[str, str]
    block: bytes
    place: str

    @property
    def kind(self) -> str:
        return self.get("warc-type").lower()

    def get(self, name: str) -> str:
        return self.headers.get(name, "")


@dataclass(frozen=True)
class Response:
    """A response: its status, fields in lower case, and body as it was sent."""

    status: int
    headers: Mapping[str, str]
    body: bytes

    def get(self, name: str) -> str:
        return self.headers.get(name, "")

    def content_type(self) -> tuple[str, str | None]:
        """The media type, and the declared character set."""
        field = self.get("content-type")
        charset = _CHARSET.search(field)
        return field.partition(";")[0].strip().lower(), charset[1] if charset else None

    def content(self) -> bytes | None:
        """The body without its transfer and content encodings; None where one isn't known."""
        body = self.body
        if "chunked" in self.get("transfer-encoding").lower():
            body = _dechunked(body)
        for encoding in reversed(self.get("content-encoding").lower().split(",")):
            match encoding.strip():
                case "" | "identity":
                    pass
                case "gzip" | "x-gzip" | "deflate":
                    body = _inflated(body)
                case _:
                    return None
        return body


def read_records(path: Path) -> Iterator[Record]:
    """The records of a file in order."""
    try:
        with open(path, "rb") as file:
            packed = file.read(2) == b"\x1f\x8b"
        with closing(gzip.open(path, "rb") if packed else open(path, "rb")) as stream:
            yield from _records(stream, path)
    except (EOFError, OSError, zlib.error) as error:
        raise InputError(str(path), f"it can't be read: {error}") from None


def _records(stream: BinaryIO, path: Path) -> Iterator[Record]:
    count = 0
    while True:
        start = stream.tell()
        line = stream.readline(_MOST_HEADER)
        if not line:
            if count == 0:
                raise InputError(str(path), "there is no WARC record")
            return
        if not line.strip():
            continue
        count += 1
        place = f"{path}: record {count} at byte {start}"
        if not line.startswith(b"WARC/"):
            raise InputError(place, f"no WARC record begins here, but {line[:20]!r}")
        headers = _fields(_head_lines(stream, place))
        size = headers.get("content-length", "")
        if not size.isdigit():
            raise InputError(place, f"the record's length is {size!r}")
        block = _block(stream, int(size), headers.get("warc-type", "").lower() in _KEPT, place)
        yield Record(headers, block, f"{path}: record {count}")


def _head_lines(stream: BinaryIO, place: str) -> Iterator[str]:
    while line := stream.readline(_MOST_HEADER):
        if not line.strip():
            return
        yield line.decode("utf-8", "replace")
    raise InputError(place, "the file ends within the record's head")


def _block(stream: BinaryIO, size: int, wanted: bool, place: str) -> bytes:
    if wanted and size <= _MOST_BLOCK:
        block = stream.read(size)
        size -= len(block)
    else:
        block = b""
        while size and (piece := stream.read(min(size, 1 << 20))):
            size -= len(piece)
    if size:
        raise InputError(place, f"the file ends {size} bytes before the record does")
    return block


def response_of(record: Record) -> Response:
    """The HTTP response in a record's block."""
    head, _, body = _split(record.block)
    first, *lines = head.decode("iso-8859-1").splitlines() or [""]
    status = _STATUS.match(first.encode("iso-8859-1"))
    if not status:
        if record.kind == "revisit":
            return Response(0, {}, b"")
        raise InputError(record.place, f"no HTTP response begins here, but {first[:20]!r}")
    return Response(int(status[1]), _fields(lines), body)


def _split(block: bytes) -> tuple[bytes, bytes, bytes]:
    end = _HEAD_END.search(block)
    return (block[: end.start()], end[0], block[end.end() :]) if end else (block, b"", b"")


def _fields(lines: Iterator[str] | list[str]) -> dict[str, str]:
    fields: dict[str, str] = {}
    name = ""
    for line in lines:
        if line[:1] in (" ", "\t") and name:
            fields[name] += " " + line.strip()
            continue
        name, colon, value = line.partition(":")
        name = name.strip().lower()
        if colon and name not in fields:
            fields[name] = value.strip()
    return fields


def _dechunked(body: bytes) -> bytes:
    """The chunks' content; the body itself where it isn't chunked any more, as some crawlers keep it."""
    parts = []
    at = 0
    while True:
        end = body.find(b"\r\n", at)
        size = body[at:end].partition(b";")[0].strip() if end >= 0 else b""
        if not re.fullmatch(rb"[0-9A-Fa-f]{1,8}", size):
            return b"".join(parts) if parts else body
        length = int(size, 16)
        if length == 0:
            return b"".join(parts)
        parts.append(body[end + 2 : end + 2 + length])
        at = end + 2 + length + 2


def _inflated(body: bytes) -> bytes:
    """The content as far as it can be unpacked; the body itself where it isn't packed."""
    for form in (47, -15):  # gzip or zlib by its head; deflate without one
        unpacker = zlib.decompressobj(form)
        parts = []
        try:
            for at in range(0, len(body), 1 << 16):
                parts.append(unpacker.decompress(body[at : at + (1 << 16)]))
        except zlib.error:
            pass
        if any(parts):
            return b"".join(parts)
    return body
