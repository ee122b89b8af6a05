"""A wiki whose pages are moved, deleted and restored, as MediaWiki does it: its export and its log beside its own state."""

from __future__ import annotations

import random
from dataclasses import dataclass, field
from datetime import datetime, timezone

from support import ArchiveCase
from test_mediawiki import HEAD, at, log, page, revision

#: 2007-07-23
START = 1_185_148_800
TITLES = [f"Page {letter}" for letter in "ABCDEFG"] + ["Äußeres"]


def stamp(time: int) -> str:
    return datetime.fromtimestamp(time, timezone.utc).strftime("%Y-%m-%dT%H:%M:%S")


def move(number: int, time: str, title: str, target: str) -> str:
    params = f'a:2:{{s:9:"4::target";s:{len(target.encode())}:"{target}";s:10:"5::noredir";s:1:"0";}}'
    entry = log(number, time, "move", title, kind="move")
    return entry.replace("</logitem>", f'<params xml:space="preserve">{params}</params></logitem>')


@dataclass
class Page:
    """A page of the wiki: its revisions, by number, time and text."""

    revisions: list[tuple[int, int, str]] = field(default_factory=list)

    @property
    def text(self) -> str | None:
        text = max(self.revisions, key=lambda each: (each[1], each[0]))[2]
        return None if text.startswith("#REDIRECT") else text


@dataclass
class Wiki:
    """Pages by title. A move leaves a redirect, and gives the page a revision of its own; over a redirect it deletes it."""

    pages: dict[str, Page] = field(default_factory=dict)
    deleted: dict[str, Page] = field(default_factory=dict)
    #: What was deleted before another of its title, and isn't restored here.
    buried: list[Page] = field(default_factory=list)
    log: list[str] = field(default_factory=list)
    count: int = 0
    #: What each title had after each act.
    states: list[tuple[int, dict[str, str]]] = field(default_factory=list)

    def note(self, time: int) -> None:
        self.states.append((time, {title: page.text for title, page in self.pages.items() if page.text is not None}))

    def edit(self, title: str, time: int, text: str) -> None:
        self.count += 1
        self.pages.setdefault(title, Page()).revisions.append((self.count, time, text))

    def delete(self, title: str, time: int, action: str = "delete") -> None:
        if title in self.deleted:
            self.buried.append(self.deleted[title])
        self.deleted[title] = self.pages.pop(title)
        self.log.append(log(len(self.log) + 1, stamp(time), action, title))

    def restore(self, title: str, time: int) -> None:
        self.pages[title] = self.deleted.pop(title)
        self.log.append(log(len(self.log) + 1, stamp(time), "restore", title))

    def move(self, title: str, target: str, time: int) -> None:
        if target in self.pages:
            self.delete(target, time, "delete_redir")
        self.log.append(move(len(self.log) + 1, stamp(time), title, target))
        page = self.pages.pop(title)
        text = max(page.revisions, key=lambda each: (each[1], each[0]))[2]
        self.pages[target] = page
        self.edit(target, time, text)
        self.edit(title, time, f"#REDIRECT [[{target}]]")

    def export(self) -> str:
        return HEAD + "".join(
            page(title, *(revision(number, stamp(time), text) for number, time, text in kept.revisions))
            for title, kept in self.pages.items()
        ) + "</mediawiki>\n"  # fmt: skip

    def act(self, chance: random.Random, time: int) -> None:
        title = chance.choice(TITLES)
        here = self.pages.get(title)
        free = [target for target in TITLES if target not in self.pages or self.pages[target].text is None]
        match chance.randrange(8):
            case 0 | 1 | 2 if here and here.text is not None and free:
                self.move(title, chance.choice(free), time)
            case 3 if here and here.text is not None:
                self.delete(title, time)
            case 4 if not here and title in self.deleted:
                self.restore(title, time)
            case _:
                self.edit(title, time, f"{title} at {time}")
        self.note(time)


class Moves(ArchiveCase):
    def imported(self, export: str, entries: list[str]) -> str:
        dump, log_file = self.folder / "dump.xml", self.folder / "log.xml"
        dump.write_text(export)
        log_file.write_text(HEAD + "".join(entries) + "</mediawiki>\n")
        done = self.tt("import", "mediawiki", dump, *([log_file] if entries else []))
        return done.stdout + done.stderr

    def test_titles_are_those_of_each_time(self) -> None:
        for seed in range(6):
            wiki, chance = Wiki(), random.Random(seed)
            for index in range(120):
                wiki.act(chance, START + 60 * index)
            # Of what is gone for good the export has nothing.
            lost = {text for page in (*wiki.deleted.values(), *wiki.buried) for _, _, text in page.revisions}
            self.archive = self.folder / f"archive{seed}"
            self.tt("init", self.archive)
            said = self.imported(wiki.export(), wiki.log)
            self.assertRegex(said, r"\nmoves of pages: \d+\n")
            self.assertNotIn("refused", said)
            self.assertNotIn("another of the same second", said)
            for (time, wanted), found in zip(wiki.states, self.texts_at(*(time for time, _ in wiki.states))):
                self.assertEqual(found, {title: text for title, text in wanted.items() if text not in lost}, (seed, time))

    def test_in_one_second(self) -> None:
        """Two pages change places, by way of a third title, and another is moved over."""
        pages = [
            page("Bridge", revision(1, "2007-01-01T00:00:00", "of the ferry")),
            page("Ferry", revision(2, "2007-01-01T00:00:00", "of the bridge")),
            page("Toll", revision(3, "2007-01-01T00:00:00", "the new toll")),
        ]
        stamped = "2007-02-01T00:00:00"
        entries = [
            move(1, stamped, "Ferry", "Between"), move(2, stamped, "Bridge", "Ferry"), move(3, stamped, "Between", "Bridge"),
            log(4, stamped, "delete_redir", "Toll"), move(5, stamped, "New toll", "Toll"),
        ]  # fmt: skip
        self.imported(HEAD + "".join(pages) + "</mediawiki>", entries)
        self.assertEqual(
            self.texts_at(at("2007-01-31"), at("2007-02-01")),
            [
                {"Ferry": "of the ferry", "Bridge": "of the bridge", "New toll": "the new toll"},
                {"Bridge": "of the ferry", "Ferry": "of the bridge", "Toll": "the new toll"},
            ],
        )

    def test_a_page_that_is_restored_where_another_came_and_went(self) -> None:
        pages = [
            page("Fair", revision(1, "2007-01-01T00:00:00", "the first fair")),
            page("Market", revision(2, "2007-01-01T00:00:00", "the market")),
        ]
        entries = [
            log(1, "2007-01-02T00:00:00", "delete", "Fair"), move(2, "2007-01-03T00:00:00", "Square", "Fair"),
            move(3, "2007-01-04T00:00:00", "Fair", "Market"), log(4, "2007-01-05T00:00:00", "restore", "Fair"),
        ]  # fmt: skip
        self.imported(HEAD + "".join(pages) + "</mediawiki>", entries)
        self.assertEqual(
            self.texts_at(*(at(f"2007-01-0{day}") for day in range(1, 6))),
            [
                {"Fair": "the first fair", "Square": "the market"},
                {"Square": "the market"},
                {"Fair": "the market"},
                {"Market": "the market"},
                {"Market": "the market", "Fair": "the first fair"},
            ],
        )

    def test_what_the_files_do_not_tell_is_told(self) -> None:
        export = HEAD + page("Bridge", revision(1, "2007-01-01T00:00:00", "open")) + "</mediawiki>"
        self.assertIn("there is no log among the files: pages have their last title throughout", self.imported(export, []))
        self.archive = self.folder / "with a log"
        self.tt("init", self.archive)
        said = self.imported(export, [log(1, "2007-01-02T00:00:00", "delete", "Ferry"), log(2, "2007-01-03T00:00:00", "delete", "Ferry")])
        self.assertIn("the log has no moves; where pages were moved all the same", said)
        self.assertIn("pages that the log deletes, and of which the export has nothing: 1\n", said)
        said = self.tt("import", "mediawiki", "-v", "--dry-run", self.folder / "dump.xml", self.folder / "log.xml").stderr
        self.assertIn("pages that the log deletes, and of which the export has nothing: Ferry\n", said)

    def test_an_older_log(self) -> None:
        older = log(1, "2007-01-02T00:00:00", "move", "Bridge", kind="move").replace("</logitem>", "<params>The_bridge\n0</params></logitem>")
        hidden = log(2, "2007-01-03T00:00:00", "move", "X", kind="move")
        export = HEAD + page("The bridge", revision(1, "2007-01-01T00:00:00", "open")) + "</mediawiki>"
        self.assertIn("log entry 2: move without a target, left out", self.imported(export, [older, hidden]))
        self.assertEqual(self.texts_at(at("2007-01-01"), at("2007-01-02")), [{"Bridge": "open"}, {"The bridge": "open"}])
