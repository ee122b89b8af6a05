#!/usr/bin/env python3
"""Random and hostile scripts on the built program, each beside the model.

    python3 tools/tests/scripts.py PROGRAM [--count N] [--seed S] [--first I]

A scenario is some runs on one archive, in a folder in memory where there is such a folder. After each run the program is to have
shown what the model says, and its journal and the sublists of its plans are to have the model's bytes. Behind them come two exports,
which are to show the model's packets, and archives that follow this one by them. What is drawn depends on
the seed and the scenario's number alone. The alphabets of words, documents and times are small, so that most things meet. The
letters of the words are in each version of Unicode that a program may have.
"""

from __future__ import annotations

import argparse
import random
import shutil
import subprocess
import sys
import tempfile
from pathlib import Path

from model import FOLLOW, OPEN, PAGE, Archive, Choice, Differs, NotArchive, Outcome, input_of, packets, read_journal, spell_journal, words_of

MOST_SECONDS = 60
#: Words as they are spelled; those of one row have one key.
SPELLINGS = [
    ["red", "Red", "RED"],
    ["blue", "BLUE"],
    ["Straße", "STRASSE", "strasse"],
    ["caf\u00e9", "cafe\u0301", "CAF\u00c9"],
    ["\u03a3\u03af\u03c3\u03c5\u03c6\u03bf\u03c2", "\u03a3\u038a\u03a3\u03a5\u03a6\u039f\u03a3"],
    ["\ufb01sh", "fish", "FISH"],
    ["\u212bngstr\u00f6m", "\u00e5ngstro\u0308m"],
    ["\u0438", "\u0418"],
    ["7"],
    ["a1\u00b2"],
    ["AND", "And"],
    ["\u6f22\u5b57"],
    ["x" * 255],
]
SEPARATORS = [" ", " ", " ", ", ", "-", "\n", "\r\n", "\t", "_", "'", "\0", " (", ") ", "^", "\u2014", "\u20ac"]
FACTORS = ["1/1", "1/1", "3/2", "3/2", "2/1", "5/4", "4/1", "9/7", "6/4", "100/1", "003/02", "4294967295/1"]
NO_FACTORS = ["1/2", "0/0", "1/0", "3", "/", "2/", "/1", "a/b", "4294967296/1", "3/1/1", "-3/2", "3/ 2"]
TOLERANCES = ["0/1", "0/7", "1/10", "1/4", "1/4", "1/3", "1/2", "1/2", "3/4", "9/10", "001/04", "4294967294/4294967295"]
NO_TOLERANCES = ["1/1", "2/1", "0/0", "1/0", "3", "/", "1/", "/4", "a/b", "1/4294967296", "1/3/4", "-1/2", "1/ 2"]
NO_TIMES = ["", "x", "-1", "1.5", "1099511627776", "1969-12-31", "2007-02-29", "2007-7-01", "2007-13-01", "07-07-07", "2007-07-20x"]
DATES = ["1970-01-01", "1970-01-02", "1970-02-28", "2000-02-29", "9999-12-31"]
NO_TEXTS = [b"\xff", b"red \xc3", b"\xc3\x28", b"\xed\xa0\x80", b"red\xf5\x80\x80\x80", b"\xe2\x82", b"\xc0\x80", b"\x80"]
NO_COMMANDS = [
    b"hello", b"Arrive 1 2 3", b"delete", b"delete 1", b"delete 1 2 3", b"delete\t1 2", b"show 1", b"show x 10", b"show 1 2 3", b" # 1",
    b"find", b"find 10", b"find 10 \xc3\x28", b"between 5 5 red", b"between 7 3 red", b"between 1 2", b"plan", b"plan red",
    b"plan red guarantee", b"plan red space 2/1", b"plan red space 2/1 since", b"plan red space 2/1 uniform 3", b"plan \xff guarantee 2/1",
    b"propose red", b"propose red space 2/1 uniform", b"certificate", b"certificate red blue", b"verify now", b"\r", b"\0", b"\xff\xfe",
    b"begin red", b"begin red guarantee", b"begin red space 2/1 uniform", b"format", b"format 02", b"top 0 10 red", b"top 1000001 10 red", b"top 3 10", b"top 3.0 10 red",
    b"best 0 10 red", b"best 1001 10 red", b"best 3 10", b"best 3 10 \xff", b"best -1 10 red", b"best red",
    b"approx red", b"approx red blue 1/2", b"approx red 2/2", b"rough 1/2 10", b"rough 2/1 10 red", b"rough 10 red",
    b"share 17/1 red", b"share 33/2 red", b"share 1/2 red", b"share 2/1", b"share", b"share red 2/1", b"share 2/1 red \xff",
    b"share 1/1" + b" red" * 17, b"batch", b"batch 0", b"batch 1001", b"batch x", b"batch 1 2", b"batch -1", b"q" * 4_096,
]  # fmt: skip
BROKEN = [b"arrive\n", b"arrive 1 2\n", b"arrive 1 x 3\nred\n", b"arrive 1 2 3 4\n", b"  arrive 1 1969-01-01 0\n\n", b"r" * 4_097]
SKIPPED = [b"", b"   ", b"#", b"# arrive 1 2 3", b"#\xff\xfe", b"#" * 4_096, b" " * 4_096]


class Writer:
    """Writes the scripts of one scenario."""

    def __init__(self, chance: random.Random) -> None:
        self.chance = chance
        self.words = chance.sample(SPELLINGS, chance.randint(1, 4))
        self.documents = chance.sample([0, 1, 2, 3, 70_000, (1 << 32) - 1], chance.randint(1, 4))
        #: The time of the last change that was written, as far as it moved on.
        self.clock = chance.choice([0, 0, 5, 1_000, 86_395, (1 << 40) - 200])

    def is_one_in(self, count: int) -> bool:
        return self.chance.randrange(count) == 0

    def word(self) -> str:
        return self.chance.choice(["unknown", "y" * 256] if self.is_one_in(30) else self.chance.choice(self.words))

    def text(self) -> bytes:
        if self.is_one_in(25):
            return self.chance.choice(NO_TEXTS)
        if self.is_one_in(60):
            return b"%b " % self.word().encode() * self.chance.choice([100, 5_000])
        count = self.chance.choice([0, 1, 1, 2, 3, 5, 8])
        text = "".join(self.word() + self.chance.choice(SEPARATORS) for _ in range(count))
        return text.removesuffix(" ").encode()

    def document(self) -> bytes:
        if self.is_one_in(60):
            return b"0%d" % self.chance.choice(self.documents)
        return b"%d" % self.chance.choice(self.documents)

    def time(self) -> bytes:
        """Of a change: mostly the last time or a later one."""
        if self.is_one_in(15):
            return self.asked_time()
        self.clock = min(self.clock + self.chance.choice([0, 0, 1, 1, 2, 5, 40]), (1 << 40) - 1)
        return b"%d" % self.clock

    def asked_time(self) -> bytes:
        if self.is_one_in(40):
            return self.chance.choice(NO_TIMES).encode()
        if self.is_one_in(40):
            return self.chance.choice(DATES).encode()
        if self.is_one_in(30):
            return b"%d" % self.chance.choice([0, (1 << 40) - 1])
        return b"%d" % min(self.chance.randint(max(0, self.clock - 60), self.clock + 3), (1 << 40) - 1)

    def tolerance(self) -> bytes:
        return self.chance.choice(NO_TOLERANCES if self.is_one_in(20) else TOLERANCES).encode()

    def factor(self) -> bytes:
        return self.chance.choice(NO_FACTORS if self.is_one_in(20) else FACTORS).encode()

    # -- queries

    def token(self) -> str:
        word = self.word()
        if self.is_one_in(12):
            word = self.chance.choice(["'", "!", "\t", "\u20ac"]) + word + self.chance.choice(["", ".", "\r"])
        if self.is_one_in(6):
            word += "^" + self.chance.choice(["1", "2", "5", "1000", "007", "0", "1001", "", "x", "-1", "2^3", "99999999999999999999"])
        return word

    def tree(self, depth: int) -> str:
        kind = self.chance.randrange(8) if depth else 0
        if kind <= 2:
            return self.token()
        if kind == 3:
            return f"not {self.tree(depth - 1)}"
        if kind == 4:
            return f"({self.tree(depth - 1)})"
        joint = self.chance.choice([" ", "  ", " and ", " or ", " or "])
        return self.tree(depth - 1) + joint + self.tree(depth - 1)

    def query(self) -> bytes:
        kind = self.chance.randrange(24)
        if kind == 0:
            soup = [self.token(), "and", "or", "not", "(", ")", "-", "red-blue", "^", "^5", "()", "and^2", "not.", "'or'", "red^^5", "red^5."]
            query = " ".join(self.chance.choice(soup) for _ in range(self.chance.randint(1, 7)))
        elif kind == 1:
            opened = self.chance.choice([63, 64, 65])
            query = "(" * opened + self.token() + ")" * self.chance.choice([opened, opened, opened - 1, opened + 1])
        elif kind == 2:
            query = "not " * self.chance.choice([1, 2, 63, 64, 65]) + self.token()
        elif kind == 3:
            query = self.tree(2)[: self.chance.randint(1, 20)]
        else:
            query = self.tree(3)
        return query.strip(" ").encode()[:3_900] or b"red"

    # -- lines

    def any_of(self) -> bytes:
        """Words with one `or` between each and the next, or what is nearly that."""
        words = [self.token() if self.is_one_in(3) else self.word() for _ in range(self.chance.choice([1, 1, 2, 2, 3, 5]))]
        query = self.chance.choice([" or ", " or ", " or ", "  or   "]).join(words)
        if self.is_one_in(8):
            query = self.chance.choice([f"({query})", f"not {query}", f"{query} and {self.word()}", f"{query} or", f"{query} or or {self.word()}", f"{query} {self.word()}"])
        return query.strip(" ").encode()[:3_900]

    def share(self) -> bytes:
        """A budget for some words, of which some stand there twice, and some may be none."""
        count = self.chance.choice([1, 1, 2, 3, 4, 16])
        words = [self.chance.choice(self.chance.choice(self.words)) for _ in range(count)]
        if self.is_one_in(4):
            words[self.chance.randrange(count)] = self.chance.choice(["red-blue", "!", "moonless", self.word(), "y" * 256])
        factor = self.chance.choice(["1/1", "1/1", "3/2", "2/1", "5/4", "4/1", "9/7", "16/1", "32/2", "016/1"])
        return b"share %b %b" % (factor.encode(), " ".join(words).encode()[:3_900])

    def command(self) -> bytes:
        """One command, with its text where it is an arrival."""
        kind = self.chance.randrange(100)
        if kind < 36:
            return self.change()
        if kind < 44:
            return self.batch()
        if kind < 56:
            asked = self.asked_time(), self.query()
            if self.is_one_in(6):
                return b"rough %b %b %b" % (self.tolerance(), *asked)
            if self.is_one_in(5):
                return b"best %b %b %b" % (self.chance.choice([b"1", b"2", b"3", b"007", b"1000"]), asked[0], self.any_of())
            return b"top %b %b %b" % (self.chance.choice([b"1", b"2", b"3", b"007", b"1000000"]), *asked) if self.is_one_in(4) else b"find %b %b" % asked
        if kind < 64:
            return b"between %b %b %b" % (*sorted([self.asked_time(), self.asked_time()], key=_in_order), self.query())
        if kind < 69:
            return b"show %b %b" % (self.document(), self.asked_time())
        word = self.chance.choice(["red-blue", "!", "red^2", "red'"]) if self.is_one_in(20) else self.word()
        if kind < 78:
            name = b"begin" if self.is_one_in(3) else b"plan"
            return b"%b %b guarantee %b" % (name, word.encode(), self.factor())
        if kind < 81:
            return b"plan %b space %b uniform" % (word.encode(), self.factor())
        if kind < 84:
            return b"plan %b space %b since %b" % (word.encode(), self.factor(), self.asked_time())
        if kind < 85:
            return b"approx %b %b" % (word.encode(), self.tolerance())
        if kind < 88:
            return b"propose %b guarantee %b" % (word.encode(), self.factor())
        if kind < 91:
            return self.share() if self.is_one_in(3) else b"certificate %b" % word.encode()
        if kind < 93:
            return b"verify"
        if kind < 96:
            return self.chance.choice(SKIPPED)
        if kind < 97:
            return b"format 2"
        return self.chance.choice(NO_COMMANDS)

    def change(self) -> bytes:
        if self.is_one_in(5):
            return b"delete %b %b" % (self.document(), self.time())
        text = self.text()
        return b"arrive %b %b %d\n%b" % (self.document(), self.sound_time(), len(text), text)

    def batch(self) -> bytes:
        """Changes that come all at once. Among them may be other commands and skipped lines, and there may be more or fewer of them than
        its line says: the next lines belong to it, or are items by themselves, and the script may end within it."""
        count = self.chance.choice([1, 1, 2, 2, 3, 5, 12])
        lines = [self.command() if self.is_one_in(12) else self.change() for _ in range(count)]
        if self.is_one_in(6):
            lines.insert(self.chance.randrange(count), self.chance.choice([*SKIPPED, b"batch 2", b"batch 2", b"batch 0"]))
        if self.is_one_in(15):
            count = max(1, count + self.chance.choice([-1, 1, 2]))
        return b"\n".join([b"batch %d" % count if self.chance.randrange(20) else b"batch 0%d" % count, *lines])

    def sound_time(self) -> bytes:
        """Of an arrival, whose line has to be a command."""
        time = self.time()
        return time if time.isdigit() and int(time) < 1 << 40 else b"%d" % self.clock

    def spaced(self, command: bytes) -> bytes:
        """With spaces around it and in it."""
        line, end, text = command.partition(b"\n")
        return b"  " + line.replace(b" ", b"  ", 2) + b"   " + end + text

    def first_script(self) -> bytes:
        """Some changes to begin with, so that there is something to ask for."""
        changes = []
        for _ in range(self.chance.choice([0, 2, 6, 12])):
            text = " ".join(self.word() for _ in range(self.chance.randint(0, 4))).encode()
            change = b"delete %b %b" % (self.document(), self.time())
            if not self.is_one_in(5):
                change = b"arrive %b %b %d\n%b" % (self.document(), self.sound_time(), len(text), text)
            changes.append(change + b"\n")
        if self.chance.randrange(2):
            changes.insert(self.chance.randint(0, len(changes)), b"format 2\n")
        return b"".join(changes)

    def script(self, most: int) -> bytes:
        lines = [self.command() for _ in range(self.chance.randint(0, most))]
        script = b""
        for line in lines:
            line = self.spaced(line) if self.is_one_in(20) and not line.startswith(b"batch") else line
            script += line + (b"\r\n" if self.is_one_in(10) else b"\n")
        place = self.chance.randrange(len(script) + 1)
        kind = self.chance.randrange(30)
        if kind == 0:
            return script[:place]
        if kind == 1:
            return script[:place] + bytes([self.chance.choice([0, 10, 13, 32, 49, 255])]) + script[place:]
        if kind == 2:
            return script[:place] + script[place + 1 :]
        if kind == 3:
            return script + self.chance.choice(BROKEN)
        return script

    def wide_script(self) -> bytes:
        """A word whose list has more boundaries than a plan under a space bound looks at."""
        word = self.chance.choice(self.words)[0].encode()
        lines = []
        for _ in range(self.chance.randint(126, 150)):
            self.clock += 1
            text = word * self.chance.randint(1, 2)
            lines.append(b"arrive %d %d %d\n%b\n" % (self.chance.randrange(4), self.clock, len(text), text))
        if self.chance.randrange(2):
            lines.insert(0, b"format 2\nbatch %d\n" % len(lines))
        lines.append(b"plan %b space %b uniform\n" % (word, self.factor()))
        lines.append(b"find %d %b\nplan %b guarantee 3/2\nfind %d %b\n" % (self.clock - 9, word, word, self.clock - 7, word))
        return b"".join(lines)

    def job_script(self) -> bytes:
        """A word with many boundaries, and a plan of it that is begun: what comes behind it comes between its stints."""
        word, lines = self.chance.choice(self.words)[0].encode(), []
        for _ in range(self.chance.choice([9, 10, 18, 40])):
            self.clock = min(self.clock + 1, (1 << 40) - 1)
            text = b" ".join([word] * self.chance.randint(0, 2))
            lines.append(b"arrive %d %d %d\n%b\n" % (self.chance.randrange(9), self.clock, len(text), text))
        return b"".join([*lines, b"begin %b guarantee %b\n" % (word, self.chance.choice([b"1/1", b"1/1", b"5/4", self.factor()]))])

    def long_script(self) -> bytes:
        """Words in some hundred documents, in some stretches of them more often, with plans that have their horizon behind some of the
        times that are asked for, and questions for their first rows."""
        self.words = [row for row in self.words if len(row[0]) < 20] or [SPELLINGS[0]]
        changed: list[int] = []
        lines = [b"format 2", *self.many_changes(changed), *self.many_changes(changed)]
        for row in self.words:
            plan = self.chance.choice(["guarantee 1/1", "guarantee 3/2", "guarantee 4294967295/1", "space 2/1 uniform", "space 1/1 uniform", ""])
            name = b"begin" if plan.startswith("guarantee") and self.is_one_in(3) else b"plan"
            lines += [b"%b %b %b" % (name, row[-1].encode(), plan.encode())] if plan else []
        lines += self.many_changes(changed) if self.is_one_in(2) else []
        for _ in range(20):
            count = self.chance.choice([b"1", b"2", b"5", b"10", b"40", b"300"])
            lines.append(b"best %b %d %b" % (count, max(0, self.clock - self.chance.randrange(15)), self.any_of()))
        return b"\n".join(lines) + b"\n"

    def many_changes(self, changed: list[int]) -> list[bytes]:
        """A batch of arrivals at one time, of new documents or of some that changed before, and what is deleted at the same time."""
        self.clock = min(self.clock + self.chance.randint(1, 9), (1 << 40) - 1)
        acts, document, most, count = [], self.chance.choice([0, 1, 500]), 1, 100 if changed else self.chance.randint(150, 700)
        for _ in range(count):
            document += self.chance.choice([1, 1, 1, 2, 7, self.chance.choice([1, 1_000_000])])
            most = self.chance.choice([1, 1, 2, 9]) if self.is_one_in(70) else most
            text = " ".join(row[0] for row in self.words for _ in range(self.chance.choice([0, 1, 1, self.chance.randint(1, most)]))).encode()
            deletes = document in changed and self.is_one_in(3)
            acts.append(b"delete %d %d" % (document, self.clock) if deletes else b"arrive %d %d %d\n%b" % (document, self.clock, len(text), text))
            changed += [document] if document not in changed else []
        return [b"batch %d" % len(acts), *acts]


def _in_order(time: bytes) -> int:
    return int(time) if time.isdigit() else 0


class Pages:
    """The bytes of Pages, each read when it is looked at: a follower may be given places that lie far behind all others."""

    def __init__(self, path: Path) -> None:
        self.path = path

    def __getitem__(self, span: slice) -> bytes:
        with self.path.open("rb") as file:
            file.seek(span.start)
            return file.read(span.stop - span.start)


class Folder:
    """A folder of an archive of its own, and the archive that the model has of it."""

    def __init__(self, program: str, path: Path | None = None) -> None:
        self.program = program
        self.archive = Archive()
        self.outcome = Outcome(b"", "", 0)  #: how the last run ended whose difference was asked for
        self.was_cut = False  #: whether a run was cut short, and may have left bytes behind the last gate
        self.pulled = 0  #: how many bytes of the script the last run pulled
        memory = "/dev/shm" if Path("/dev/shm").is_dir() else None
        self.path = path or Path(tempfile.mkdtemp(prefix="hostile-", dir=memory))
        self.journal, self.pages = self.path / "archive.journal", self.path / "archive.pages"

    def __enter__(self) -> Folder:
        return self

    def __exit__(self, *_: object) -> None:
        shutil.rmtree(self.path)

    def files(self) -> list[bytes]:
        """What the journal and Pages hold."""
        return [it.read_bytes() if it.exists() else b"" for it in (self.journal, self.pages)]

    def run(self, script: bytes) -> Outcome:
        """What the program shows of a script, and how it ends."""
        return self.run_as([self.program], script)

    def run_as(self, command: list[str], script: bytes, **given: object) -> Outcome:
        """The same of a command, with the script in a file as standard input, and with what else is given. (Where words stand in the
        script's place, it has them too.)"""
        path = self.path / "script"
        path.write_bytes(input_of(script))
        with path.open("rb") as source:
            streams = {"stdin": source, "stdout": subprocess.PIPE, "stderr": subprocess.PIPE, **given}
            ended = subprocess.run([*command, *words_of(script)], cwd=self.path, timeout=MOST_SECONDS, **streams)
            self.pulled = source.tell()
        return Outcome(ended.stdout or b"", (ended.stderr or b"").decode(errors="replace"), ended.returncode)

    def difference(self, script: bytes) -> str:
        """Runs a script; where the program differs from the model, how it does."""
        self.outcome = self.run(script)
        return self.difference_of(script, self.outcome, self.journal.read_bytes(), Pages(self.pages))

    def difference_of(self, script: bytes, outcome: Outcome, journal: bytes, pages: bytes | Pages) -> str:
        """How a run of the script that came to this, and left these files, differs from the model's."""
        try:
            entries = [entry for _, entry in read_journal(journal)]
            wanted = self.archive.run(script, Choice(entries, outcome.shown))
        except (Differs, NotArchive) as differs:
            return f"{type(differs).__name__}: {differs}"
        if outcome.shown != wanted.shown:
            return first_difference(outcome.shown, wanted.shown)
        if outcome != wanted:
            return f"the program ends with {outcome.status} {outcome.line!r}, and the model with {wanted.status} {wanted.line!r}"
        return self.file_difference(journal, pages)

    def file_difference(self, journal: bytes, pages: bytes | Pages) -> str:
        """How the files differ from what the model has."""
        wanted = spell_journal(self.archive.entries)
        if self.was_cut and journal[len(wanted) - 1 : len(wanted)] != bytes([OPEN]):
            journal = journal[: len(wanted) - 1] + wanted[-1:]
        if journal != wanted:
            place = next((at for at, (one, other) in enumerate(zip(journal, wanted)) if one != other), min(len(journal), len(wanted)))
            return f"the journal differs at byte {place}: {journal[place:][:32].hex()}, and not {wanted[place:][:32].hex()}"
        for place, content in self.archive.live_sublists():
            if (held := pages[place : place + len(content)]) != content:
                return f"the sublist in page {place // PAGE} is {held.hex()}, and not {content.hex()}"
        return ""


def first_difference(shown: bytes, wanted: bytes) -> str:
    lines, others = shown.split(b"\n"), wanted.split(b"\n")
    for number, (line, other) in enumerate(zip([*lines, b"(the end)"], [*others, b"(the end)"]), 1):
        if line != other:
            return f"line {number} of the replies is {line!r}, and not {other!r}"
    return "the replies are alike"


def altered(chance: random.Random, journal: bytes) -> bytes:
    """A journal with another byte, cut short, or with bytes behind it."""
    place, kind = chance.randrange(len(journal)), chance.randrange(4)
    if kind == 0:
        return journal[:place]
    if kind == 1:
        return journal + bytes([chance.choice([0, 0xA5, 0xFF])]) * chance.randint(1, 30)
    return journal[:place] + bytes([chance.choice([0, 1, 2, 9, 0xA5, 0xFF, journal[place] ^ 1])]) + journal[place + 1 :]


def export_difference(folder: Folder, chance: random.Random) -> str:
    """How the exports of all entries and of those from a number on differ from the model's packets."""
    for first in (1, chance.randint(1, len(folder.archive.entries) + 2)):
        if difference := folder.difference(b"--export %d\n" % first):
            return f"an export from {first}: {difference}"
    return ""


def follow_difference(folder: Folder, chance: random.Random) -> str:
    """How archives that follow this one differ from the model, and one that takes all of it from this one: twice, from a number on, and
    what was cut or altered."""
    entries, count = folder.archive.entries, len(folder.archive.entries)
    whole, begin = packets(entries, 1), chance.randint(1, count + 2)
    with Folder(folder.program) as follower:
        for what, first in (("took", 1), ("had", 1), ("had", begin)):
            if difference := follower.difference(FOLLOW + packets(entries, first)):
                return f"a follower, from {first} on: {difference}"
            wanted = b"".join(b"%b %d\n" % (what.encode(), number) for number in range(first, count + 1))
            if follower.outcome != Outcome(wanted + b"end %d\n" % count, "", 0):
                return f"a follower, from {first} on: {follower.outcome}"
        if difference := folder.file_difference(*follower.files()):
            return f"a follower's files, beside its leader: {difference}"
    place, at = chance.randrange(len(whole) + 1), chance.randrange(max(1, len(whole)))
    other = whole[:at] + bytes([chance.choice([0, 1, 2, 9, 0xFF, *(it ^ 1 for it in whole[at : at + 1])])]) + whole[at + 1 :]
    for what, stream in (("from a number on", packets(entries, begin)), (f"cut at {place}", whole[:place]), (f"altered at {at}", other)):
        with Folder(folder.program) as follower:
            for again in (stream, whole):
                if difference := follower.difference(FOLLOW + again):
                    return f"a follower of packets {what}{' and then of all' if again is whole else ''}: {difference}"
    return ""


def journal_difference(folder: Folder, journal: bytes) -> str:
    """How the program's load of another journal differs from the model's, for an export and for a script."""
    folder.journal.write_bytes(journal)
    try:
        folder.archive = Archive.loaded(journal, folder.pages.stat().st_size)
        refused = None
    except NotArchive as place:
        refused = Outcome(b"", f"tt_archive: not an archive at byte {place} of the journal\n", 3)
    for script in (b"--export 1\n", FOLLOW, b"arrive 9 1099511627775 3\nred\n"):
        outcome, wanted = folder.run(script), refused or folder.archive.run(script, Choice([], b""))
        if outcome != wanted:
            return f"of {script!r} the program makes {outcome}, and not {wanted}"
    return ""


def scenario_difference(program: str, seed: int, number: int, is_long: bool = False) -> tuple[str, list[bytes]]:
    """Plays one scenario: how the program differs from the model, and the scripts (or a journal, at last) up to there."""
    chance = random.Random(f"{seed} {number}")
    writer, scripts = Writer(chance), []
    with Folder(program) as folder:
        for run in range(chance.randint(1, 4)):
            first = writer.wide_script() if writer.is_one_in(250) else writer.first_script() if run == 0 else b""
            if run == 0 and (is_long or writer.is_one_in(40)):
                first = writer.long_script()
            begun = writer.job_script() if writer.is_one_in(6) else b""
            scripts.append(first + begun + writer.script(chance.choice([3, 12, 30])))
            if difference := folder.difference(scripts[-1]):
                return difference, scripts
        if difference := export_difference(folder, random.Random(f"export {seed} {number}")):
            return difference, scripts
        if difference := follow_difference(folder, random.Random(f"follow {seed} {number}")):
            return difference, scripts
        if writer.is_one_in(2):
            scripts.append(altered(chance, folder.journal.read_bytes()))
            return journal_difference(folder, scripts[-1]), scripts
    return "", scripts


def main() -> int:
    parser = argparse.ArgumentParser(description=__doc__, formatter_class=argparse.RawDescriptionHelpFormatter)
    parser.add_argument("program")
    parser.add_argument("--count", type=int, default=300)
    parser.add_argument("--seed", type=int, default=1)
    parser.add_argument("--first", type=int, default=0, metavar="I", help="the number of the first scenario")
    parser.add_argument("--long", action="store_true", help="each scenario begins with long lists that are asked for their first rows")
    words = parser.parse_args()
    runs = 0
    for number in range(words.first, words.first + words.count):
        difference, scripts = scenario_difference(str(Path(words.program).resolve()), words.seed, number, words.long)
        runs += len(scripts)
        if difference:
            again = f"--seed {words.seed} --first {number} --count 1" + " --long" * words.long
            print(*scripts, sep="\n", end="\n\n")
            print(f"scripts: {difference}\nscripts: in run {len(scripts)} of `{again}`, whose scripts are above")
            return 1
    print(f"scripts: {words.count} scenarios of the seed {words.seed} with {runs} runs go as in the model")
    return 0


if __name__ == "__main__":
    sys.exit(main())
