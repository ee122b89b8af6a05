"""A wiki of five pages with redirects, deletions and revisions out of order, beside what its log says."""

from __future__ import annotations

import bz2
import gzip
from datetime import datetime, timezone
from xml.sax.saxutils import escape

from support import ArchiveCase, needs

HEAD = '<mediawiki xmlns="http://www.mediawiki.org/xml/export-0.11/" version="0.11" xml:lang="de">\n<siteinfo/>\n'


def at(text: str) -> int:
    return int(datetime.fromisoformat(text).replace(tzinfo=timezone.utc).timestamp())


def revision(number: int, stamp: str, text: str | None) -> str:
    content = f"<text bytes='9'>{escape(text)}</text>" if text is not None else "<text deleted='deleted' />"
    return f"<revision><id>{number}</id><timestamp>{stamp}Z</timestamp><contributor><id>7</id></contributor>{content}</revision>\n"


def page(title: str, *revisions: str, redirect: str | None = None) -> str:
    target = f'<redirect title="{redirect}" />' if redirect else ""
    return f"<page><title>{escape(title)}</title><ns>0</ns><id>1</id>{target}{''.join(revisions)}</page>\n"


def log(number: int, stamp: str, action: str, title: str, kind: str = "delete") -> str:
    return (
        f"<logitem><id>{number}</id><timestamp>{stamp}Z</timestamp><type>{kind}</type>"
        f"<action>{action}</action><logtitle>{escape(title)}</logtitle></logitem>\n"
    )


DUMP = HEAD + "".join([
    page("Bridge",
         revision(12, "2007-03-01T10:00:00", "The bridge is closed."),
         revision(10, "2007-01-01T10:00:00", "The bridge is open."),
         revision(11, "2007-02-01T10:00:00", None),
         revision(15, "2007-06-01T10:00:00", "The bridge is open again.")),
    page("Ferry & boat",
         revision(21, "2007-01-15T08:00:00", "#REDIRECT [[Bridge]]"),
         revision(22, "2007-02-15T08:00:00", "The ferry goes every hour."),
         revision(23, "2007-02-15T08:00:00", "The ferry goes every half hour.")),
    page("Overfart",
         revision(31, "2007-01-20T08:00:00", "Text before it redirects."),
         revision(32, "2007-05-01T08:00:00", "#OMDIRIGER [[Bridge]]"), redirect="Bridge"),
    page("List", revision(41, "2007-01-02T00:00:00", "#see [[Bridge]]\n#see [[Ferry]]")),
    page("Lost and found", revision(51, "2007-01-03T00:00:00", "Lost."), revision(52, "2007-01-04T00:00:00", "Found.")),
]) + "</mediawiki>\n"  # fmt: skip
LOG = HEAD + "".join([
    log(1, "2007-01-10T00:00:00", "delete", "Lost and found"),
    log(2, "2007-01-12T00:00:00", "restore", "Lost and found"),
    log(3, "2007-01-13T00:00:00", "delete", "Never there"),
    log(4, "2007-04-01T00:00:00", "delete", "Bridge"),
    log(5, "2007-04-02T00:00:00", "revision", "List"),
    log(6, "2007-04-03T00:00:00", "move", "List", kind="move"),
]) + "</mediawiki>\n"  # fmt: skip

OPEN, CLOSED, AGAIN = "The bridge is open.", "The bridge is closed.", "The bridge is open again."
HALF = "The ferry goes every half hour."
LIST = "#see [[Bridge]]\n#see [[Ferry]]"
EXPECTED = {
    "2007-01-01T09:59:59": {},
    "2007-01-01T10:00:00": {"Bridge": OPEN},
    "2007-01-09T00:00:00": {"Bridge": OPEN, "List": LIST, "Lost and found": "Found."},
    "2007-01-10T00:00:00": {"Bridge": OPEN, "List": LIST},
    "2007-01-12T00:00:00": {"Bridge": OPEN, "List": LIST, "Lost and found": "Found."},
    "2007-01-25T00:00:00": {"Bridge": OPEN, "List": LIST, "Lost and found": "Found.", "Overfart": "Text before it redirects."},
    "2007-02-15T08:00:00": {"Bridge": OPEN, "List": LIST, "Lost and found": "Found.", "Overfart": "Text before it redirects.", "Ferry & boat": HALF},
    "2007-03-31T23:59:59": {"Bridge": CLOSED, "List": LIST, "Lost and found": "Found.", "Overfart": "Text before it redirects.", "Ferry & boat": HALF},
    "2007-04-01T00:00:00": {"List": LIST, "Lost and found": "Found.", "Overfart": "Text before it redirects.", "Ferry & boat": HALF},
    "2007-06-01T10:00:00": {"Bridge": AGAIN, "List": LIST, "Lost and found": "Found.", "Ferry & boat": HALF},
}  # fmt: skip


class MediaWikiImport(ArchiveCase):
    def test_is_what_the_dump_and_its_log_say(self) -> None:
        dump, log_file = self.folder / "dump.xml.bz2", self.folder / "log.xml.gz"
        dump.write_bytes(bz2.compress(DUMP.encode()))
        log_file.write_bytes(gzip.compress(LOG.encode()))
        done = self.tt("import", "mediawiki", dump, log_file)
        self.assertIn("9 versions and 3 deletions are in the archive", done.stdout)
        self.assertIn("redirects, without a text of their own: 2", done.stdout)
        self.assertIn("page 'Bridge', revision 11: revision whose text is hidden, left out", done.stderr)
        self.assertNotIn("refused", done.stdout)
        for (stamp, texts), found in zip(EXPECTED.items(), self.texts_at(*map(at, EXPECTED))):
            self.assertEqual(found, texts, stamp)

    def test_goes_on_with_a_newer_dump(self) -> None:
        dump = self.folder / "dump.xml"
        dump.write_text(DUMP)
        self.tt("import", "mediawiki", dump)
        dump.write_text(DUMP.replace("</mediawiki>", page("New", revision(60, "2008-01-01T00:00:00", "New.")) + "</mediawiki>"))
        done = self.tt("import", "mediawiki", dump)
        self.assertIn("1 version and 0 deletions are in the archive", done.stdout)
        self.assertNotIn("refused", done.stdout)
        older = page("Old", revision(61, "2006-01-01T00:00:00", "Old."))
        dump.write_text(DUMP.replace("</mediawiki>", older + "</mediawiki>"))
        done = self.tt("import", "mediawiki", dump)
        self.assertIn("0 versions and 0 deletions are in the archive", done.stdout)

    def test_what_is_new_and_too_late_is_told(self) -> None:
        dump = self.folder / "dump.xml"
        dump.write_text(DUMP)
        self.tt("import", "mediawiki", dump)
        older = page("Old", revision(61, "2006-01-01T00:00:00", "Old."))
        dump.write_text(DUMP.replace("</mediawiki>", older + "</mediawiki>"))
        done = self.tt("import", "mediawiki", dump)
        self.assertIn("nothing before its last time: 1", done.stdout)

    def test_redirects_can_be_kept(self) -> None:
        dump = self.folder / "dump.xml"
        dump.write_text(DUMP)
        self.tt("import", "mediawiki", dump, "--keep-redirects")
        [texts] = self.texts_at(at("2007-06-01T10:00:00"))
        self.assertEqual(texts["Overfart"], "#OMDIRIGER [[Bridge]]")

    @needs("utf8")
    def test_a_dump_in_another_character_set(self) -> None:
        dump = self.folder / "dump.xml"
        text = HEAD + page("Straße", revision(1, "2007-01-01T00:00:00", "Grün.")) + "</mediawiki>"
        dump.write_bytes(b'<?xml version="1.0" encoding="iso-8859-1"?>\n' + text.encode("iso-8859-1"))
        self.tt("import", "mediawiki", dump)
        self.assertEqual(self.texts_at(at("2007-01-01")), [{"Straße": "Grün."}])

    def test_faults_have_their_place(self) -> None:
        dump = self.folder / "dump.xml"
        dump.write_text(DUMP.replace("</page>", "</pag>", 1))
        self.assertRegex(self.tt("import", "mediawiki", dump, status=1).stderr, r"dump\.xml:7:\d+: no XML: mismatched tag")
        dump.write_text("<mediawiki/>")
        self.assertIn("there is no page", self.tt("import", "mediawiki", dump, status=1).stderr)
        dump.write_text(HEAD + page("A", revision(1, "yesterday", "x")) + "</mediawiki>")
        self.assertIn("page 'A', revision 1: 'yesterdayZ' is no timestamp", self.tt("import", "mediawiki", dump, status=1).stderr)
        dump.write_bytes(gzip.compress(DUMP.encode())[:-200])
        self.assertIn("it can't be read on", self.tt("import", "mediawiki", dump, status=1).stderr)
        self.assertEqual(self.tt("status").stdout.splitlines()[0], "documents  0, of which 0 have a text now; 0 names")
