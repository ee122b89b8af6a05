"""The pages of `tt serve`, asked without a browser: heads, links, hostile names and texts, addresses, marks, faults."""

from __future__ import annotations

import os
import re
import socket
import threading
import time
import unittest
from unittest import mock
from urllib.parse import quote, urlencode

from fake.words import parse, runs
from pages import Node, PagesCase
from support import DAY, Version, needs, sample
from tt_archive_tools.errors import ToolError
from tt_archive_tools.journal import entries, heads
from tt_archive_tools.names import escape
from tt_archive_tools.replies import ReplyReader, Span
from tt_archive_tools.serving import bands, finding, web
from tt_archive_tools.serving.addresses import ROUTES, Asked, address
from tt_archive_tools.serving.curves import curve_of
from tt_archive_tools.serving.difference import Line, difference
from tt_archive_tools.serving.written import written
from tt_archive_tools.words import key_of

FAKE = "fake_tt_archive" in os.environ.get("TT_ARCHIVE", "")
#: 2007-07-23
START = 13_717 * DAY
TOWN = [
    Version(START, "bridge", "The bridge is open."),
    Version(START, "ferry", "The ferry goes."),
    Version(START + DAY, "bridge", "The bridge is closed.\nNo bridge today."),
    Version(START + 2 * DAY, "ferry", "The ferry is closed: take the bridge."),
    Version(START + 3 * DAY, "bridge", None),
    Version(START + 4 * DAY, "road", "The road is open."),
]
HEADS = {
    "Content-Security-Policy": "default-src 'none'; style-src 'self'; script-src 'self'; img-src 'self'; form-action 'self'; "
    "base-uri 'none'; frame-ancestors 'none'",
    "X-Content-Type-Options": "nosniff",
    "Referrer-Policy": "same-origin",
    "Cross-Origin-Resource-Policy": "same-origin",
    "Cache-Control": "no-cache",
    "Server": "tt ",
}
#: What is between the tags and attributes of another, or would act in a page, a terminal or an address.
HOSTILE = [
    "<img src=x onerror=alert(1)>.txt",
    "</pre><script>document.title='owned'</script>",
    "\"'><svg onload=alert(1)>",
    "a&amp;b&lt;c",
    "]]><!-- --!>",
    "%3Cscript%3E%00%0a",
    "right\u202eto left\u2066",
    "line\nfeed\ttab\x1b[31m\x07\0",
    "back\\slash\\n",
    "?doc=#7&at=2007",
    "bytes\udce9\udcff",
    "ſtraße \u0130 e\u0301",
    " spaces around ",
    "https://evil.example/",
    "//evil.example/find",
]


class Pages(PagesCase):
    def setUp(self) -> None:
        super().setUp()
        self.fill(TOWN)
        self.server = self.serve("archive.example.org")

    def assert_heads(self, headers: dict[str, str]) -> None:
        self.assertEqual({key: headers.get(key) for key in HEADS}, HEADS)

    def test_each_page(self) -> None:
        for to, title in (
            ("/", "Ask the archive"),
            ("/find?q=bridge&at=2007-07-25", "bridge at 2007-07-25"),
            ("/between?q=bridge", "bridge over time"),
            ("/heat?q=bridge", "bridge as a heat map"),
            ("/text?doc=bridge&at=2007-07-24&q=bridge", "bridge"),
            ("/diff?doc=bridge&at=2007-07-24", "bridge: what changed"),
            ("/changes", "What changed"),
            ("/names?part=br", "Names"),
            ("/timeline?word=bridge", "The word bridge"),
        ):
            with self.subTest(to):
                answer = self.get(to)
                self.assertEqual(answer.status, 200, answer.text)
                self.assert_heads(answer.headers)
                self.assertEqual(answer.headers["Content-Type"], "text/html; charset=utf-8")
                self.assertEqual(answer.page.all("title")[0].text, title)
                head = self.get(to, "HEAD")
                self.assertEqual((head.status, head.text), (200, ""))

    def test_rows_are_those_of_find(self) -> None:
        for query, at in (("bridge", "2007-07-25"), ("bridge or ferry", ""), ("closed and not bridge", "2007-07-26"), ("heron", "2007-07-25")):
            found = self.get("/find?" + urlencode({"q": query, **({"at": at} if at else {})}, quote_via=quote)).rows
            told = self.tt("find", query, "--at", at or "now", "--tsv").stdout.splitlines()
            self.assertEqual(["\t".join(row) for row in found], told)

    def test_more_rows(self) -> None:
        self.fill([Version(START + 5 * DAY, f"one of many {index:02}", "heron " * (index + 1)) for index in range(45)])
        self.wait_for_versions(51)
        told = self.tt("find", "heron", "--tsv").stdout.splitlines()
        found, to = [], "/find?q=heron"
        while to:
            answer = self.get(to)
            found += ["\t".join(row) for row in answer.rows]
            more = answer.page.all("a", rel="next")
            to = more[0].words["href"] if more else ""
        self.assertEqual((found, len(found)), (told, 45))
        self.assertEqual(len(self.page("/find?q=heron&start=20").all("a", rel="prev")), 1)

    def test_what_one_document_has(self) -> None:
        page = self.page("/text?doc=bridge&at=2007-07-24T12%3A00%3A00Z&q=bridge")
        self.assertEqual(page.all("pre")[0].text, "The bridge is closed.\nNo bridge today.")
        self.assertIn("version 2 of 3", page.text)
        [before], [after] = page.all("a", rel="prev"), page.all("a", rel="next")
        self.assertEqual(before.words["href"], "/text?doc=bridge&at=2007-07-23&q=bridge")
        self.assertEqual(after.words["href"], "/text?doc=bridge&at=2007-07-26&q=bridge")
        self.assertEqual(self.get("/text.txt?doc=bridge&at=2007-07-24").text, "The bridge is closed.\nNo bridge today.")
        self.assertEqual(self.get("/text.txt?doc=bridge&at=2007-07-26").status, 404)
        self.assertIn("It ended at 2007-07-26; the last one is of 2007-07-24.", self.page("/text?doc=bridge").text)
        self.assertIn("no text yet at 2001-01-01: the first one is of 2007-07-23", self.page("/text?doc=bridge&at=2001-01-01").text)
        self.assertIn("near it: bridge", self.page("/text?doc=brigde", 404).text)
        self.assertIn("has no version at 2001-01-01", self.page("/diff?doc=bridge&at=2001-01-01", 404).text)

    def test_what_a_version_changed(self) -> None:
        [shown] = self.page("/diff?doc=bridge&at=2007-07-24").all("pre")
        lines = [(span.words.get("class", ""), span.text) for span in shown.inside if isinstance(span, Node)]
        wanted = [("hunk", "lines 1 to 2"), ("old", "- The bridge is open."), ("new", "+ The bridge is closed."), ("new", "+ No bridge today.")]
        self.assertEqual(lines, wanted)
        [shown] = self.page("/diff?doc=ferry&at=2007-07-25").all("pre")
        self.assertEqual([node.text for node in shown.all("del")], ["goes"])
        self.assertEqual("".join(node.text for node in shown.all("ins")), "is closed: take the bridge")
        page = self.page("/diff?doc=bridge&at=2007-07-26")
        self.assertIn("The document ends with this.", page.text)
        self.assertIn("the first version", self.page("/diff?doc=bridge&at=2007-07-23").text)

    def test_changes_and_names(self) -> None:
        rows = [[cell.text for cell in row.all("td")] for row in self.page("/changes?at=2007-07-26").all("tr")]
        self.assertEqual(
            rows,
            [
                ["2007-07-26", "ends", "bridge"],
                ["2007-07-25", "changes", "ferry"],
                ["2007-07-24", "changes", "bridge"],
                ["2007-07-23", "begins", "ferry"],
                ["2007-07-23", "begins", "bridge"],
            ],
        )
        self.assertEqual([item.text for item in self.page("/names?part=R").all("li")], ["bridge", "ferry", "road"])
        self.assertEqual([item.text for item in self.page("/names?part=idg").all("li")], ["bridge"])

    def test_windows(self) -> None:
        page = self.page("/between?q=bridge&from=2007-07-23&to=2007-07-26")
        rows = [[cell.text for cell in row.all("td")] for row in page.all("tbody")[0].all("tr")]
        told = self.tt("between", "bridge", "--from", "2007-07-23", "--to", "2007-07-26", "--tsv").stdout.splitlines()
        self.assertEqual(["\t".join(row) for row in rows], told)
        self.assertEqual([bar.text for bar in page.all("svg")[0].all("text") if bar.words.get("text-anchor") == "end"], ["bridge", "ferry"])
        self.assertIn("isn't before the second", self.page("/heat?q=bridge&from=2008-01-01&to=2007-01-01", 400).text)
        closer = self.page("/find?q=bridge&at=2007-07-25&from=2007-07-24&to=2007-07-26")
        self.assertEqual(closer.all("input", id="slide")[0].words["min"], str(START + DAY))
        self.assertIn("all the time", closer.text)

    def test_an_answer_of_the_past_stays(self) -> None:
        to = "/find?q=bridge&at=2007-07-25"
        before = self.get(to)
        self.assertIn("This answer stays as it is", before.text)
        self.assertIn("A later version may still change", self.get("/find?q=bridge").text)
        self.fill([Version(START + 6 * DAY, "bridge", "The bridge is new."), Version(START + 7 * DAY, "ferry", None)])
        self.wait_for_versions(8)
        after = self.get(to)
        self.assertEqual(after.rows, before.rows)
        texts = [[node.text for node in answer.page.all(class_="text")] for answer in (before, after)]
        self.assertEqual(texts[0], texts[1])
        self.assertEqual(self.get("/find?q=bridge").rows, [("1", "bridge")])

    def test_forms_lead_to_the_one_address(self) -> None:
        for path in ("/", "/find?q=bridge", "/between?q=bridge", "/heat?q=bridge", "/text?doc=bridge", "/names", "/find?q=bridge&from=2007-07-23"):
            for form in self.page(path).all("form"):
                given = [(field.words["name"], field.words.get("value", "")) for field in form.all("input")]
                for filled in (
                    given,
                    [(key, "bridge or (ferry)" if key in ("q", "part") else value) for key, value in given],
                    [(key, "2007-07-24T00:00:00Z" if key in ("at", "from") else "x y" if key == "q" else value) for key, value in given],
                    [*given, ("by", "slide")],
                ):
                    sent = f"{form.words['action']}?{urlencode(filled)}"
                    answer = self.get(sent)
                    self.assertEqual(answer.status, 303, sent)
                    self.assert_heads(answer.headers)
                    again = self.get(answer.headers["Location"])
                    self.assertEqual(again.status, 200, (sent, answer.headers["Location"], again.text))
        slid = self.get(f"/find?q=a&at=&slide={START + 1}&by=slide").headers["Location"]
        self.assertEqual(slid, "/find?q=a&at=2007-07-23T00%3A00%3A01Z")
        self.assertEqual(self.get("/find?at=2007&q=a+b&x=y").headers["Location"], "/find?q=a%20b&at=2007-01-01")
        self.assertEqual(self.get("/find?q=&at=2007").headers["Location"], "/")

    def test_every_link_leads_somewhere(self) -> None:
        fewer = mock.patch.multiple(bands, BANDS=4), mock.patch.multiple(finding, _STRETCHES=4)
        for each in fewer:
            each.start()
            self.addCleanup(each.stop)
        seen, open_ = set(), ["/", "/find?q=bridge%20or%20ferry&at=2007-07-25", "/between?q=closed", "/heat?q=bridge"]
        while open_:
            to = open_.pop()
            if to in seen:
                continue
            seen.add(to)
            answer = self.get(to)
            self.assertIn(answer.status, (200, 303), to)
            self.assert_heads(answer.headers)
            if answer.headers["Content-Type"].startswith("text/html"):
                for node in answer.page.all():
                    for link in (node.words[key] for key in ("href", "src", "action") if key in node.words):
                        self.assertTrue(link.startswith("/") and not link.startswith("//") or link == "#answer", link)
                        if link.startswith("/"):
                            self.assertTrue(node.tag == "form" or link == "/" or self.canonical(link), link)
                            open_.append(link)
        self.assertGreater(len(seen), 60)

    def canonical(self, link: str) -> bool:
        asked = Asked.of(link)
        return asked.path not in ROUTES or asked.canonical() == link

    def test_what_is_refused(self) -> None:
        for query, told in (("bridge and and", "a word is missing before this"), ("(bridge", "a ) is missing here"), ("a-b", "write a b")):
            page = self.page("/find?q=" + quote(query, safe=""), 400)
            self.assertEqual(page.all("p", role="alert")[0].text, "That is no query")
            [line, mark] = page.all("pre")[0].text.splitlines()
            self.assertIn(query, line)
            self.assertIn(told, mark)
            self.assertEqual(page.all("input", id="q")[0].words["value"], query)
        self.assertIn("'soon' is no time", self.page("/find?q=a&at=soon", 400).text)
        self.assertEqual(self.page("/find?q=a&at=soon", 400).all("input", id="at")[0].words["value"], "soon")
        self.assertIn("a question is one line", self.page("/find?q=a%0Ab", 400).text)
        self.assertIn("at most 4096 bytes", self.page("/find?q=" + "a" * 5_000, 400).text)
        self.assertIn("no document ever had the word", self.page("/timeline?word=heron", 400).text)
        self.assertIn("AND in capitals is a word to look for", self.page("/find?q=bridge%20AND%20ferry").text)
        self.assertIn("what lacks it is found by: not ferry", self.page("/find?q=-ferry").text)

    def test_requests_that_are_none(self) -> None:
        for method in ("POST", "PUT", "DELETE", "OPTIONS", "TRACE", "FOO"):
            answer = self.get("/", method)
            self.assertEqual((answer.status, answer.headers["Allow"], answer.headers["Connection"]), (405, "GET, HEAD", "close"))
            self.assert_heads(answer.headers)
        for to, status in (("/none", 404), ("/find?q=%ff", 400), ("/?" + "a=b&" * 30, 400), ("/../../etc/passwd", 404)):
            answer = self.get(to)
            self.assertEqual(answer.status, status, to)
            self.assert_heads(answer.headers)
        self.assertEqual(self.get("/", body=b"content").status, 400)
        here = f"127.0.0.1:{self.port}"
        self.assertEqual(self.get(f"http://{here}/", Host=here).status, 400)
        for host, status in (
            (here, 200), (f"localhost:{self.port}", 200), ("archive.example.org", 200), (f"archive.example.org:{self.port}", 200),
            ("evil.example", 421), (f"evil.example:{self.port}", 421), ("127.0.0.1", 421), ("", 421), (f"{here}.evil.example", 421),
        ):  # fmt: skip
            answer = self.get("/", Host=host)
            self.assertEqual(answer.status, status, host)
            self.assert_heads(answer.headers)

    def test_half_a_request_is_dropped(self) -> None:
        with mock.patch.object(web.Handler, "timeout", 0.3), socket.create_connection(("127.0.0.1", self.port), 10) as half:
            half.sendall(b"GET / HTTP/1.1\r\nHost: ")
            self.assertEqual(half.recv(1), b"")
        self.assertEqual(self.get("/").status, 200)
        with socket.create_connection(("127.0.0.1", self.port), 10) as odd:
            odd.sendall(b"\x16\x03\x01\x02\0\r\n\r\n")
            self.assertIn(b"Content-Security-Policy: default-src 'none'", odd.recv(10_000))

    def test_many_at_once(self) -> None:
        server = self.server
        found: list[int] = []

        def ask() -> None:
            found.append(self.get("/find?q=bridge").status)

        with server.archive.asked():
            threads = [threading.Thread(target=ask) for _ in range(web.MOST_REQUESTS)]
            for thread in threads:
                thread.start()
            end = time.monotonic() + 20
            while server.requests._value and time.monotonic() < end:
                time.sleep(0.01)
            busy = self.get("/find?q=bridge")
            self.assertEqual((busy.status, busy.headers["Retry-After"]), (503, "1"))
            self.assert_heads(busy.headers)
        for thread in threads:
            thread.join()
        self.assertEqual(found, [200] * web.MOST_REQUESTS)


class Small(PagesCase):
    def test_an_empty_archive(self) -> None:
        self.serve()
        self.assertIn("The archive is empty.", self.page("/").text)
        for to in ("/find?q=a", "/find?q=a&at=2007-01-01", "/between?q=a", "/heat?q=a", "/changes", "/names", "/names?part=a"):
            self.assertEqual(self.get(to).rows, [], to)
            self.page(to)
        self.page("/text?doc=a", 404)
        self.assertIn("the archive has no version yet", self.page("/timeline?word=a", 400).text)

    def test_one_version(self) -> None:
        self.fill([Version(START, "one", "a text")])
        self.serve()
        for to in ("/", "/find?q=text", "/find?q=text&at=2007-07-23", "/find?q=text&at=1970-01-01", "/between?q=text", "/heat?q=text", "/changes", "/diff?doc=one"):
            self.page(to)
        self.assertEqual(self.get("/find?q=text").rows, [("1", "one")])
        self.assertIn("no text yet", self.page("/text?doc=one&at=1970-01-01").text)
        self.assertIn("There is no text at now.", self.page("/text?doc=%239").text)


class Hostile(PagesCase):
    def shape(self, to: str) -> tuple[set[str], str]:
        """The elements of a page with their attributes, and its text."""
        answer = self.get(to)
        self.assertIn(answer.status, (200, 303, 400, 404), to)
        if answer.status == 303:
            return self.shape(answer.headers["Location"])
        return {f"{node.tag} {' '.join(sorted(node.words))}" for node in answer.page.all()}, answer.page.text

    def pages_of(self, name: str, query: str) -> list[str]:
        shown = name.encode(errors="surrogateescape").decode(errors="replace")
        words = {"q": query.replace("\0", ""), "at": "2007-07-25"}
        return [
            *(f"{path}?{urlencode(words, quote_via=quote)}" for path in ("/find", "/between", "/heat", "/changes")),
            *(address(path, doc=shown, q=query, at=START + DAY) for path in ("/text", "/diff")),
            address("/names", part=shown[:6]), address("/find", q="word"), address("/between", q="word"), address("/heat", q="word"), "/changes",
        ]  # fmt: skip

    def test_nothing_of_an_archive_is_markup(self) -> None:
        self.fill([Version(START, "plain", "a plain word"), Version(START + DAY, "plain", "another word")])
        self.serve()
        usual: set[str] = set()
        for to in [*self.pages_of("plain", "word"), *self.pages_of("none", "a-b"), "/find?q=a%20AND%20word"]:
            usual |= self.shape(to)[0]
        self.fill([Version(START + 2 * DAY, name, f"word {name} <b onclick='x'>word</b>".encode(errors="replace").decode()) for name in HOSTILE])
        self.fill([Version(START + 3 * DAY, name, f"word <i>{name[::-1]}</i> word".encode(errors="replace").decode()) for name in HOSTILE])
        self.wait_for_versions(2 + 2 * len(HOSTILE))
        for name in HOSTILE:
            for to in self.pages_of(name, name.encode(errors="replace").decode()):
                shape, _ = self.shape(to)
                self.assertLessEqual(shape, usual | {f"{tag} " for tag in ("ins", "del", "mark", "li", "ul")}, to)
        rows = {name for _, name in self.get("/find?q=word").rows}
        self.assertEqual(rows, {"plain", *map(escape, HOSTILE)})

    def test_each_name_is_an_address(self) -> None:
        names = [*HOSTILE, "a\\nb", "a\nb", "a\\\\nb", "#1", "\\", "%"]
        self.fill([Version(START, name, f"word of number {number}") for number, name in enumerate(names)])
        self.serve()
        found = {}
        to = "/find?q=word"
        while to:
            page = self.page(to)
            for link in page.all(class_="name"):
                found[link.text] = self.page(link.words["href"]).all("pre")[0].text
            to = next((link.words["href"] for link in page.all("a", rel="next")), "")
        self.assertEqual(sorted(found.values()), sorted(f"word of number {number}" for number in range(len(names))))


class Parts(unittest.TestCase):
    """What pages are made of, held against other ways to say the same."""

    def test_curves(self) -> None:
        rows = [Span(1, 10, 20, 1), Span(1, 20, 30, 2), Span(1, 40, 50, 1), Span(2, 20, 45, 1), Span(3, 30, 1 << 40, 0)]
        curve = curve_of(rows)
        for time_ in range(60):
            self.assertEqual(curve.at(time_), len({row.doc for row in rows if row.start <= time_ < row.end}), time_)
        for start in range(0, 60, 3):
            for end in range(start + 1, 61):
                self.assertEqual(curve.most(start, end), max(curve.at(at) for at in range(start, end)))

    def test_replies_are_written_as_they_were_read(self) -> None:
        script = (
            b"hit 1 4\nhit 2 3\nend 2 read 7\nspan 1 0 5 2\nend 1 read 1\nend 0 read 0\ntext 5\na\nb\nc\ntext 0\n\nnone\nok 7\n"
            b"no 11 BadQuery 4\nno 2 TimeBack 99\nno 14 NoPlan\nsegment 0 5 3\nnode 0 0\nnode 5 3\nend 1 space 3\n"
            b"plan 5 segments 3 space 2 full 2 horizon 4\nplan 5 segments 3 space 2 full 2 horizon 4 cost 9\nsound 1 2\ndiffers w 1 2 -- ff\n"
        )
        self.assertEqual(b"".join(map(written, ReplyReader().replies(script))), script)

    def test_both_sides_of_a_difference(self) -> None:
        for before, after in (("a\nb\nc", "a\nx\nc\nd"), ("", "new"), ("old", ""), ("same", "same"), ("x " * 3_000, "x " * 1_500 + "y " + "x " * 1_500), ("a\rb\n" * 3, "a\rb\u2028\n")):
            lines = [line for line in difference(before, after) if isinstance(line, Line)]
            for signs, text in ((" -", before), (" +", after)):
                self.assertLessEqual({"".join(piece.text for piece in line.pieces) for line in lines if line.sign in signs}, {*text.split("\n")})
            self.assertEqual(bool(lines), before != after)

    def test_a_difference_of_large_texts(self) -> None:
        long = "\n".join(" ".join(f"w{(at * 7 + k) % 50}" for k in range(250)) for at in range(3_000))
        self.assertGreater(sum(1 for _ in difference(long, long.replace("w7 ", "w8 x "))), 3_000)

    def test_addresses(self) -> None:
        for doc in HOSTILE[:9]:
            to = address("/text", doc=doc, at=START, q="a b")
            self.assertEqual(Asked.of(to).canonical(), to)
            self.assertRegex(to, r"^/text\?[!-~]+$")
        self.assertEqual(address("/find", q="a", at=1 << 40, start=0), "/find?q=a")
        self.assertRaises(ToolError, Asked.of("/find?q=a&at=1969").canonical)
        self.assertEqual(Asked.of("/find?q=a&at=%401099511627775").canonical(), "/find?q=a")


@needs("utf8", "queries")
class Marks(PagesCase):
    def test_the_words_that_count_are_marked(self) -> None:
        texts = [version.text or "" for version in sample(seed=3, documents=5, count=40)]
        texts += ["Straße, STRASSE; strasse_x e\u0301te \u00e9TE 12a ² \u0130stanbul w1w2 w1-w2", "Grüße\u0308 w0 ΣΑΣ σας"]
        self.fill([Version(START + at, f"doc {at}", text) for at, text in enumerate(texts) if text])
        self.serve()
        for query in ("w0 or w1", "w0 not w1", "not (not w1 and not w2)", "STRASSE or été", "σας or not w3", "(w1 or not (w2 or not w3))"):
            keys = parse(query).positive
            for at, text in enumerate(texts):
                if not text:
                    continue
                page = self.page(address("/text", doc=f"doc {at}", q=query))
                wanted = [run for run in runs(text) if key_of(run) in keys]
                self.assertEqual([mark.text for mark in page.all("mark")], wanted, (query, text))
                self.assertEqual(page.all("pre")[0].text, text)


class Heads(unittest.TestCase):
    def test_the_script_and_the_style(self) -> None:
        for name in ("page.css", "page.js", "favicon.svg"):
            self.assertGreater(len(web._file(name)), 50)
        self.assertEqual(len(web._file("page.js").splitlines()), 7)
        self.assertIsNone(re.search(r"innerHTML|eval|document\.write", web._file("page.js")))


class Journals(PagesCase):
    def test_heads_are_those_of_the_entries(self) -> None:
        self.assertEqual(list(heads(self.archive)), [])
        self.fill(sample(seed=5, documents=4, count=60))
        self.tt("plan", "w1", "guarantee", "3/2")
        self.fill([Version(2_000 * DAY, "doc1", "")])
        wanted = [(entry.doc, entry.time, entry.arrives) for entry in entries(self.archive, texts=False) if entry.changes]
        self.assertEqual((list(heads(self.archive)), len(wanted)), (wanted, 61))
        (self.archive / "archive.journal").write_bytes(b"this is no journal at all")
        self.assertRaises(ToolError, list, heads(self.archive))
