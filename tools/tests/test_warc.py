"""Captures with a redirect, a page that is gone, and what servers do to bodies."""

from __future__ import annotations

import gzip
import zlib
from datetime import datetime, timezone

from support import ArchiveCase, needs

HOME, NEWS, OLD = "http://example.org/", "http://example.org/news", "http://example.org/old"


def at(stamp: str) -> int:
    return int(datetime.fromisoformat(stamp).replace(tzinfo=timezone.utc).timestamp())


def record(kind: str, stamp: str, address: str, block: bytes, content_type: str, *more: str) -> bytes:
    head = [
        "WARC/1.0", f"WARC-Type: {kind}", f"WARC-Date: {stamp}Z", f"WARC-Target-URI: {address}",
        "WARC-Record-ID: <urn:uuid:0>", f"Content-Type: {content_type}", f"Content-Length: {len(block)}", *more,
    ]  # fmt: skip
    return "\r\n".join(head).encode() + b"\r\n\r\n" + block + b"\r\n\r\n"


def response(stamp: str, address: str, status: str, fields: list[str], body: bytes, *more: str, kind: str = "response") -> bytes:
    block = "\r\n".join([f"HTTP/1.1 {status}", *fields]).encode() + b"\r\n\r\n" + body
    return record(kind, stamp, address, block, "application/http; msgtype=response", *more)


HTML = ["Content-Type: text/html; charset=utf-8"]
CAPTURES = [
    record("warcinfo", "2007-07-01T00:00:00", "", b"software: none\r\n", "application/warc-fields"),
    response("2007-07-03T00:00:00", NEWS, "200 OK", HTML, b"<html><head><title>News</title><script>var x = 'no';</script></head><body><p>The bridge &amp; the ferry.</p></body></html>"),
    record("request", "2007-07-03T00:00:00", NEWS, b"GET /news HTTP/1.1\r\n\r\n", "application/http; msgtype=request"),
    response("2007-07-01T00:00:00", HOME, "200 OK", HTML, b"<p>Welcome.</p>", "WARC-Payload-Digest: sha1:HOME"),
    response("2007-07-02T00:00:00", OLD, "200 OK", ["Content-Type: text/plain"], b"An old page."),
    response("2007-07-04T00:00:00", OLD, "301 Moved", ["Location: /news", "Content-Type: text/html"], b"<p>Moved."),
    response("2007-07-05T00:00:00", NEWS, "404 Not Found", HTML, b"<p>Not here."),
    response("2007-07-06T00:00:00", HOME, "503 Busy", HTML, b"<p>Later."),
    response("2007-07-07T00:00:00", HOME, "404 Not Found", HTML, b"<p>Gone."),
    response("2007-07-08T00:00:00", HOME, "200 OK", [], b"", "WARC-Payload-Digest: sha1:HOME", kind="revisit"),
    response("2007-07-09T00:00:00", NEWS, "200 OK", ["Content-Type: image/png"], b"\x89PNG\0"),
]  # fmt: skip
EXPECTED = {
    "2007-07-01": {HOME: "Welcome."},
    "2007-07-02": {HOME: "Welcome.", OLD: "An old page."},
    "2007-07-03": {HOME: "Welcome.", OLD: "An old page.", NEWS: "News\nThe bridge & the ferry."},
    "2007-07-04": {HOME: "Welcome.", NEWS: "News\nThe bridge & the ferry."},
    "2007-07-05": {HOME: "Welcome."},
    "2007-07-06": {HOME: "Welcome."},
    "2007-07-07": {},
    "2007-07-08": {HOME: "Welcome."},
}


class WarcImport(ArchiveCase):
    def test_is_what_the_captures_say(self) -> None:
        one, two = self.folder / "one.warc", self.folder / "two.warc.gz"
        one.write_bytes(b"".join(CAPTURES[:5]))
        two.write_bytes(b"".join(gzip.compress(capture) for capture in CAPTURES[5:]))
        done = self.tt("import", "warc", one, two)
        self.assertIn("4 versions and 3 deletions are in the archive", done.stdout)
        self.assertIn("captures of redirects: 1", done.stdout)
        self.assertIn("captures of what wasn't there: 2", done.stdout)
        self.assertIn("captures of image/png, without a text: 1", done.stdout)
        self.assertIn("two.warc.gz: record 3: capture with status 503, left out", done.stderr)
        for (stamp, texts), found in zip(EXPECTED.items(), self.texts_at(*map(at, EXPECTED))):
            self.assertEqual(found, texts, stamp)

    def test_a_folder_of_crawls(self) -> None:
        crawls = self.folder / "crawls"
        (crawls / "july").mkdir(parents=True)
        (crawls / "notes.txt").write_text("no capture")
        self.assertIn("there is no file *.warc or *.warc.gz in it", self.tt("import", "warc", crawls, status=1).stderr)
        (crawls / "july" / "one.warc").write_bytes(b"".join(CAPTURES[:4]))
        self.tt("import", "warc", crawls)
        (crawls / "two.warc.gz").write_bytes(gzip.compress(b"".join(CAPTURES[5:])))
        self.assertEqual(self.tt("refresh").stdout, f"warc {crawls}: 1 version and 2 deletions are in the archive\n")
        self.assertEqual(self.texts_at(at("2007-07-06"), at("2007-07-08")), [{HOME: "Welcome."}, {HOME: "Welcome."}])

    def test_what_servers_do_to_bodies(self) -> None:
        body = b"A text that was sent in pieces."
        chunks = b"10\r\n" + body[:16] + b"\r\nf;x=y\r\n" + body[16:] + b"\r\n0\r\n\r\n"
        plain = "Content-Type: text/plain"
        bodies = {
            "chunked": (["Transfer-Encoding: chunked"], chunks),
            "said-chunked": (["Transfer-Encoding: chunked"], body),
            "gzip": (["Content-Encoding: gzip"], gzip.compress(body)),
            "deflate": (["Content-Encoding: deflate"], zlib.compress(body)[2:-4]),
            "zlib": (["Content-Encoding: deflate"], zlib.compress(body)),
            "said-gzip": (["Content-Encoding: gzip"], body),
        }
        file = self.folder / "a.warc"
        file.write_bytes(b"".join(response("2007-07-01T00:00:00", name, "200 OK", [plain, *fields], sent) for name, (fields, sent) in bodies.items()))
        self.tt("import", "warc", file)
        self.assertEqual(self.texts_at(at("2007-07-01")), [dict.fromkeys(bodies, body.decode())])

    @needs("utf8")
    def test_character_sets(self) -> None:
        pages = {
            "http": response("2007-07-01T00:00:00", "http", "200 OK", ["Content-Type: text/html; charset=ISO-8859-1"], "Öl\x80".encode("latin-1")),
            "meta": response("2007-07-01T00:00:00", "meta", "200 OK", ["Content-Type: text/html"], b'<meta charset="koi8-r"><p>\xd2\xd5\xc2\xcc\xd8'),
            "utf8": response("2007-07-01T00:00:00", "utf8", "200 OK", HTML, b"<p>th\xe9"),
            "none": response("2007-07-01T00:00:00", "none", "200 OK", ["Content-Type: text/html"], b"<p>caf\xe9"),
        }  # fmt: skip
        file = self.folder / "a.warc"
        file.write_bytes(b"".join(pages.values()))
        done = self.tt("import", "warc", file)
        self.assertEqual(self.texts_at(at("2007-07-01")), [{"http": "Öl€", "meta": "рубль", "utf8": "th�", "none": "caf�"}])
        self.assertIn("texts decoded as cp1252: 1", done.stdout)
        self.assertIn("record 3: bytes that are declared as utf-8 and aren't, replaced", done.stderr)
        self.assertIn("record 4: bytes that aren't UTF-8 and whose character set isn't known, replaced", done.stderr)

    def test_faults_have_their_place(self) -> None:
        file = self.folder / "a.warc"
        file.write_bytes(b"".join(CAPTURES[:2])[:-30])
        self.assertRegex(self.tt("import", "warc", file, status=1).stderr, r"a\.warc: record 2 at byte \d+: the file ends 26 bytes before")
        file.write_bytes(CAPTURES[1] + b"junk\r\n")
        self.assertRegex(self.tt("import", "warc", file, status=1).stderr, r"record 2 at byte \d+: no WARC record begins here, but b'junk")
        file.write_bytes(gzip.compress(CAPTURES[1])[:-40])
        self.assertIn("a.warc: it can't be read", self.tt("import", "warc", file, status=1).stderr)


FLIP, HOP, JUMP, BARE = (f"http://example.org/{name}" for name in ("flip", "hop", "jump", "bare"))
GONE, SENT, BUSY = (f"WARC-Payload-Digest: sha1:{name}" for name in ("GONE", "SENT", "BUSY"))
PLAIN = ["Content-Type: text/plain"]
#: A crawl on each of four days, deduplicated: what has the payload of an earlier capture is a revisit with the status
#: that the server gave this time.
DEDUPLICATED = [
    response("2007-07-01T00:00:00", FLIP, "404 Not Found", HTML, b"<p>Not here.", GONE),
    response("2007-07-01T00:00:00", HOP, "302 Found", ["Location: /"], b"Elsewhere.", SENT),
    response("2007-07-01T00:00:00", JUMP, "200 OK", PLAIN, b"A jump.", "WARC-Payload-Digest: sha1:JUMP"),
    response("2007-07-02T00:00:00", FLIP, "200 OK", PLAIN, b"Here.", "WARC-Payload-Digest: sha1:HERE"),
    response("2007-07-02T00:00:00", HOP, "200 OK", PLAIN, b"No more hops.", "WARC-Payload-Digest: sha1:HOP"),
    response("2007-07-02T00:00:00", JUMP, "503 Busy", HTML, b"<p>Later.", BUSY),
    response("2007-07-03T00:00:00", FLIP, "404 Not Found", HTML, b"", GONE, kind="revisit"),
    response("2007-07-03T00:00:00", HOP, "302 Found", ["Location: /"], b"", SENT, kind="revisit"),
    response("2007-07-03T00:00:00", JUMP, "503 Busy", HTML, b"", BUSY, kind="revisit"),
    response("2007-07-04T00:00:00", FLIP, "200 OK", PLAIN, b"", "WARC-Payload-Digest: sha1:HERE", kind="revisit"),
    response("2007-07-04T00:00:00", HOP, "304 Not Modified", [], b"", kind="revisit"),
    response("2007-07-04T00:00:00", BARE, "200 OK", PLAIN, b"Bare.", "WARC-Payload-Digest: sha1:BARE"),
    record("revisit", "2007-07-05T00:00:00", FLIP, b"", "application/http; msgtype=response", GONE),
    response("2007-07-05T00:00:00", BARE, "200 OK", PLAIN, b"", GONE, kind="revisit"),
    record("revisit", "2007-07-04T00:00:00", JUMP, b"", "application/http; msgtype=response", BUSY),
    record("revisit", "2007-07-04T00:00:00", BARE, b"", "application/http; msgtype=response"),
    response("2007-07-04T00:00:00", BARE, "200 OK", PLAIN, b"", "WARC-Payload-Digest: sha1:ELSEWHERE", kind="revisit"),
    record("resource", "2007-07-04T00:00:00", "<metadata://gnu.org/software/wget/warc/wget.log>", b"FINISHED --07:07:07--", "text/plain"),
    record("resource", "2007-07-04T00:00:00", "metadata://gnu.org/software/wget/warc/wget_arguments.txt", b"-r", "text/plain"),
]  # fmt: skip
AFTER_EACH_DAY = {
    "2007-07-01": {JUMP: "A jump."},
    "2007-07-02": {FLIP: "Here.", HOP: "No more hops.", JUMP: "A jump."},
    "2007-07-03": {JUMP: "A jump."},
    "2007-07-04": {FLIP: "Here.", JUMP: "A jump.", BARE: "Bare."},
    "2007-07-05": {JUMP: "A jump.", BARE: "Bare."},
}


class Deduplicated(ArchiveCase):
    def test_a_revisit_says_what_its_own_status_says(self) -> None:
        file = self.folder / "days.warc"
        file.write_bytes(b"".join(DEDUPLICATED))
        done = self.tt("import", "warc", file)
        for (stamp, texts), found in zip(AFTER_EACH_DAY.items(), self.texts_at(*map(at, AFTER_EACH_DAY))):
            self.assertEqual(found, texts, stamp)
        self.assertIn("captures of what wasn't there: 2\n", done.stdout)
        self.assertIn("captures of redirects: 2\n", done.stdout)
        self.assertIn("capture with status 503, left out: 2\n", done.stdout)
        for number in (14, 15):
            self.assertIn(f"record {number}: revisit of a capture that has no text, left out\n", done.stderr)
        self.assertIn("record 16: revisit that names no capture's payload, left out\n", done.stderr)
        self.assertIn("record 17: revisit of a capture that isn't in these files, left out\n", done.stderr)
        self.assertIn("records of a crawler of itself (metadata:), left out: 2\n", done.stdout)
        tried = self.tt("import", "warc", "-v", "--dry-run", file).stderr
        self.assertIn(f"captures of what wasn't there: {file}: record 7, {FLIP}\n", tried)
        self.assertIn(f"(metadata:), left out: {file}: record 18, metadata://gnu.org/software/wget/warc/wget.log\n", tried)
