"""From bytes to texts, and names on a line."""

from __future__ import annotations

import unittest

from support import TOOLS as _  # noqa: F401
from tt_archive_tools.changes import Notes
from tt_archive_tools.errors import ToolError
from tt_archive_tools.html_text import text_of_html
from tt_archive_tools.names import escape, unescape
from tt_archive_tools.texts import decode
from tt_archive_tools.times import LAST_TIME, parse_stamp, parse_time, show_time


def decoded(data: bytes, declared: str | None = None) -> tuple[str | None, list[str]]:
    notes = Notes(lambda line: None)
    return decode(data, declared, "here", notes), list(notes.counts)


class Texts(unittest.TestCase):
    def test_utf8_comes_first(self) -> None:
        self.assertEqual(decoded("né".encode(), "iso-8859-1"), ("né", []))
        self.assertEqual(decoded(b"\xef\xbb\xbfmark"), ("mark", []))
        self.assertEqual(decoded(b"\xff\xfea\0b\0"), ("ab", []))

    def test_the_declared_set_is_next(self) -> None:
        self.assertEqual(decoded(b"n\xe9\x80", "latin1"), ("né€", ["texts decoded as cp1252"]))
        self.assertEqual(decoded(b"\x1b$B$\"\x1b(B", "iso-2022-jp")[0], "あ")
        self.assertEqual(decoded(b"a\0b\0", "utf-16-le")[0], "ab")

    def test_the_rest_is_replaced(self) -> None:
        replaced = ["bytes that aren't UTF-8 and whose character set isn't known, replaced"]
        self.assertEqual(decoded(b"n\xe9"), ("n\ufffd", replaced))
        self.assertEqual(decoded(b"n\xe9", "no-such-set"), ("n\ufffd", replaced))
        self.assertEqual(decoded(b"n\xe9", "base64"), ("n\ufffd", replaced))
        self.assertEqual(decoded(b"n\xe9", "UTF8"), ("n\ufffd", ["bytes that are declared as utf-8 and aren't, replaced"]))

    def test_binary(self) -> None:
        self.assertEqual(decoded(b"\x89PNG\0")[0], None)

    def test_html(self) -> None:
        page = "<head><title>T &lt;1&gt;</title><style>p {}</style></head><p>one <b>two</b>\n three<br>four<script>if (a<b) x</script><table><tr><td>5<td>6</table><pre>a\n  b</pre>"
        self.assertEqual(text_of_html(page), "T <1>\none two three\nfour\n5 6\na\nb")
        self.assertEqual(text_of_html("<head><title>unclosed</title><p>body"), "unclosed\nbody")
        self.assertEqual(text_of_html("<div><script>never closed"), "")
        self.assertEqual(text_of_html("a<!-- b -->c"), "ac")
        self.assertEqual(text_of_html("<p>one<noscript>two</noscript><button>three</button>four"), "one two three four")
        self.assertEqual(text_of_html("<p>whole</p>rest" + "<a b='" * 100_000), "whole\nrest")

    def test_names_on_a_line(self) -> None:
        name = "a\tb\\n\nc\rd\udce9\\x41\x1b[1m\x7f"
        self.assertEqual(escape(name), "a\\tb\\\\n\\nc\\rd\\xe9\\\\x41\\x1b[1m\\x7f")
        self.assertEqual(unescape(escape(name)), name)

    def test_times(self) -> None:
        self.assertEqual([parse_time(text) for text in ("1970", "1970-02", "1970-01-02", "1970-01-01T00:01", "@7", "now")], [0, 2_678_400, 86_400, 60, 7, LAST_TIME])
        noon = parse_time("2007-07-23T12:00:00Z")
        for same in ("2007-07-23T14:00+02:00", "2007-07-23 14:00:00 +0200", "2007-07-23T06:30:00-05:30", "2007-07-23T12:00+00:00", "2007-07-23T12:00-00:00"):
            self.assertEqual(parse_time(same), noon, same)
        self.assertEqual(parse_time("2008-01-01T00:30+01:00"), parse_time("2007-12-31T23:30"))
        for wrong in ("2007-07-23+02:00", "2007-07-23T14:00+2", "2007-07-23T14:00+24:00", "2007-07-23T14:00+01:60", "1970-01-01T00:00+00:01"):
            self.assertRaises(ToolError, parse_time, wrong)
        for wrong in ("1969", "2007-02-30", "07-02-2007", "2007-1-1", "86400", "@1099511627776", ""):
            self.assertRaises(ToolError, parse_time, wrong)
        self.assertEqual([show_time(time) for time in (0, 60, LAST_TIME)], ["1970-01-01", "1970-01-01T00:01:00Z", "now"])
        self.assertEqual(parse_stamp("20070723123000"), parse_stamp("2007-07-23T12:30:00.5Z"))
        self.assertEqual(parse_stamp("1969-12-31"), -86_400)
        self.assertEqual(parse_stamp("2007-13-01"), None)
