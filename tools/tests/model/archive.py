"""The history of an archive, and the reply to each command."""

from __future__ import annotations

import re
from collections import Counter
from dataclasses import dataclass
from hashlib import sha256
from typing import Iterator

from .base import FOREVER, MOST_BATCH, MOST_BEST_ROWS, MOST_BYTES, MOST_DOCUMENTS, MOST_TEXT, MOST_TOP_ROWS, MOST_VERSIONS
from .base import MOST_WORDS, PAGE
from .base import Broken, Differs, NoCommand, NotArchive, Refused
from .firsts import Sheet, test_opened
from .journal import BLOCKS, Batch, Change, Mark, Place, Plan, blocks_of, clipped, read_entry, read_journal, spell_journal, sublist
from .options import input_of, words_of
from .packets import first_difference, packet_at, packets
from .plans import GUARANTEE, SINCE, UNIFORM, Line, Posting, near_postings, stretches, test_segments, test_width, told
from .samples import PLANNED, sample_script
from .shares import MOST_ASKED, test_shares
from .script import Item, count_of, document_of, factor_of, items, query_behind, time_of, tolerance_of
from .words import Query, asks_for_any, keys, one_key


#: How many pages of a plan that was begun are written behind a command.
STINT_PAGES = 8


@dataclass(frozen=True)
class Version:
    """From a time on a document has a text with these words, or none."""

    time: int
    text: bytes | None
    counts: Counter[str] | None


@dataclass(frozen=True)
class Choice:
    """What a program chose in a run: the entries that its journal has at the end, and the bytes that it showed."""

    entries: list[bytes]
    shown: bytes


@dataclass(frozen=True)
class Outcome:
    """What a run shows on standard output and on standard error, and how it ends."""

    shown: bytes
    line: str
    status: int


@dataclass
class Job:
    """A plan that is written while other commands go on. What the program chose isn't known where no entry of it came to be."""

    key: str
    plan: Plan | None
    told: str  #: what is told of it at its end, behind the number of entries
    left: int  #: how many pages are left


class Archive:
    """The history of an archive, by its entries."""

    def __init__(self) -> None:
        self.entries: list[bytes] = []
        self.documents: dict[int, list[Version]] = {}
        self.plans: dict[str, Plan] = {}
        self.words: set[str] = set()
        self.last, self.is_marked = 0, False
        self.asked: list[tuple[str, int]] = []  # what this run was asked
        self.job: Job | None = None
        self._versions, self._length = 0, len(spell_journal([]))

    @classmethod
    def loaded(cls, journal: bytes, length: int) -> Archive:
        """The archive of a journal beside Pages of so many bytes."""
        archive, gates = cls(), {}
        for gate, entry in read_journal(journal):
            read = read_entry(entry, gate + 5)
            try:
                archive._test(read)
            except Refused:
                raise NotArchive(gate) from None
            if isinstance(read, Plan):
                gates[read.key] = gate
            archive._enter(entry)
        taken: set[int] = set()
        for key, gate in sorted(gates.items(), key=lambda it: it[1]):
            for place in archive.plans[key].places:
                if place.page * PAGE + place.size > length or not taken.isdisjoint(place.pages()):
                    raise NotArchive(gate)
                taken.update(place.pages())
        return archive

    def _test(self, read: Change | Plan | Batch | Mark) -> None:
        """What a load tests of an entry behind those before it."""
        if isinstance(read, Mark):
            self._test_mark()
        elif isinstance(read, Plan):
            self._test_plan(read)
        elif isinstance(read, Batch):
            self._test_batch(read)
        else:
            self._test_change(read)

    def _test_plan(self, plan: Plan) -> None:
        """What a load tests of a plan beyond its fields."""
        line = Line(self.postings(plan.key, 0, plan.horizon), plan.horizon)
        cuts, space = {it.cut for it in plan.places}, sum(line.size(*it) for it in plan.segments())
        is_allowed = line.full > 0 and plan.horizon <= self.last and plan.places[0].cut == line.boundaries[0]
        if is_allowed and plan.kind == GUARANTEE:
            is_allowed = cuts <= set(line.boundaries) and all(line.keeps(*it, plan.factor) for it in plan.segments())
        elif is_allowed:
            is_allowed = space <= plan.factor[0] * line.full // plan.factor[1]
        if not is_allowed:
            raise Refused("an entry that isn't legal")

    def _enter(self, entry: bytes) -> None:
        """Appends an entry that is allowed."""
        self.entries.append(entry)
        self._length += 5 + len(entry)
        read = read_entry(entry)
        if isinstance(read, Plan):
            self.plans[read.key] = read
        elif isinstance(read, Mark):
            self.is_marked = True
        else:
            for change in read.changes if isinstance(read, Batch) else [read]:
                self._note(change)

    def _note(self, change: Change) -> None:
        self.last = change.time
        counts = None if change.text is None else Counter(keys(change.text.decode()))
        self.documents.setdefault(change.document, []).append(Version(self.last, change.text, counts))
        self.words.update(counts or ())
        self._versions += 1

    # -- commands

    def run(self, script: bytes, choice: Choice) -> Outcome:
        """Carries out a script, up to a reply that the program didn't show, and tells what it is to show. A script that isn't broken
        brings a plan that was begun to its end. (Or a sample, which shows nothing of its replies, or an export; or takes packets, where
        the program has no choice.)"""
        match words_of(script):
            case ["--generate", seed, "--count", count]:
                return self._generate(int(seed), int(count), choice)
            case ["--export", first]:
                return Outcome(packets(self.entries, int(first)), "", 0)
            case ["--follow"]:
                return self._follow(input_of(script))
        shown, self.asked, self.job = b"", [], None
        try:
            for item in items(script):
                was_at_work = self.job is not None
                shown += self.shown_of(item, Choice(choice.entries, choice.shown[len(shown) :]))
                if not choice.shown.startswith(shown):
                    break
                shown += self.stint() if was_at_work else b""
            else:
                while self.job:
                    shown += self.stint()
        except Broken as place:
            return Outcome(shown, f"tt_archive: script fault at byte {place}\n", 7)
        return Outcome(shown, "", 0)

    def _generate(self, seed: int, count: int, choice: Choice) -> Outcome:
        """Carries out a sample's commands where there is no entry yet, and counts what came of them."""
        if self.entries:
            return Outcome(b"", f"tt_archive: the archive has {len(self.entries)} entries\n", 10)
        replies = [self.shown_of(item, choice) for item in items(sample_script(seed, count))]
        changes, questions = replies[: count + PLANNED], replies[count + PLANNED : -1]
        refused = sum(it.startswith(b"no ") for it in changes)
        hits, read = (sum(int(it.split()[at]) for it in questions) for at in (-3, -1))
        counts = b"generated %d accepted %d refused %d hits %d read %d\n" % (count, len(changes) - refused, refused, hits, read)
        return Outcome(counts + replies[-1], "", 0)

    def _follow(self, stream: bytes) -> Outcome:
        """Takes the packets of a stream, up to the first that can't be taken."""
        shown, at = b"", 0
        while at < len(stream):
            bad, have = Outcome(shown, f"tt_archive: bad packet at byte {at}\n", 15), len(self.entries)
            if (packet := packet_at(stream, at)) is None:
                return bad
            number, body = packet
            if number > have + 1:
                return Outcome(shown, f"tt_archive: have {have} entries, got number {number}\n", 13)
            if number <= have and body != self.entries[number - 1]:
                place = first_difference(body, self.entries[number - 1])
                return Outcome(shown, f"tt_archive: entry {number} differs at byte {place}\n", 14)
            if number > have:
                try:
                    self.take(body)
                except (Refused, NotArchive, Differs):
                    return bad
            shown += b"%b %d\n" % (b"took" if number > have else b"had", number)
            at += 12 + len(body)
        return Outcome(shown + b"end %d\n" % len(self.entries), "", 0)

    def take(self, entry: bytes) -> None:
        """Appends an entry of another archive; an error tells that it may not come next."""
        read = read_entry(entry)
        self._test(read)
        if isinstance(read, Plan):
            self._test_taken(read)
        self._append(entry)

    def _test_taken(self, plan: Plan) -> None:
        """What is tested of another archive's plan beside what a load tests."""
        postings = self.postings(plan.key, 0, plan.horizon)
        test_segments(Line(postings, plan.horizon), plan.kind, plan.factor, plan.since, plan.segments())
        if plan.key in self.plans and plan.horizon < self.plans[plan.key].horizon:
            raise Refused("a plan up to an earlier time than the live one")
        taken = {page for it in self.plans.values() for place in it.places for page in place.pages()}
        for segment, place in zip(plan.segments(), plan.places):
            content = sublist(postings, *segment, plan.layout)
            is_for = (place.size, place.digest) == (len(content), sha256(content).digest()) and (content or place.page == 0)
            if not is_for or not taken.isdisjoint(place.pages()):
                raise Refused("a place that can't be taken")
            taken.update(place.pages())

    def shown_of(self, item: Item, choice: Choice) -> bytes:
        """Carries out an item, and tells what the program is to show of it."""
        try:
            reply = self._reply(item, choice)
        except (NoCommand, UnicodeDecodeError):
            reply = ["no 1 Line"]
        except Refused as refusal:
            reply = [f"no {refusal}"]
        return reply if isinstance(reply, bytes) else "".join(line + "\n" for line in reply).encode()

    def _reply(self, item: Item, choice: Choice) -> list[str] | bytes:
        match item.words:
            case [b"arrive" | b"delete", *_]:
                return self._change(change_of(item))
            case [b"format", b"2"]:
                return self._mark()
            case [b"batch", *_] if item.members:
                return self._batch(item.members)
            case [b"plan", word, b"guarantee", factor]:
                return self._plan(word.decode(), GUARANTEE, factor_of(factor), 0, choice)
            case [b"plan", word, b"space", factor, b"uniform"]:
                return self._plan(word.decode(), UNIFORM, factor_of(factor), 0, choice)
            case [b"plan", word, b"space", factor, b"since", since]:
                return self._plan(word.decode(), SINCE, factor_of(factor), time_of([since]), choice)
            case [b"begin", word, b"guarantee", factor]:
                return self._begin(word.decode(), factor_of(factor), choice)
            case [b"propose", word, b"guarantee", factor]:
                return self._propose(word.decode(), factor_of(factor), choice)
            case [b"certificate", word]:
                return self._certificate(word.decode())
            case [b"find", time, _, *_]:
                return self._find(time_of([time]), query_behind(item.line, 2))
            case [b"top", count, time, _, *_]:
                return self._top(count_of(count, MOST_TOP_ROWS), time_of([time]), query_behind(item.line, 3))
            case [b"best", count, time, _, *_]:
                return self._best(count_of(count, MOST_BEST_ROWS), time_of([time]), query_behind(item.line, 3), choice)
            case [b"approx", word, tolerance]:
                return self._approx(word.decode(), tolerance_of(tolerance))
            case [b"rough", tolerance, time, _, *_]:
                return self._rough(tolerance_of(tolerance), time_of([time]), query_behind(item.line, 3))
            case [b"between", start, end, _, *_] if time_of([start]) < time_of([end]):
                return self._between(time_of([start]), time_of([end]), query_behind(item.line, 3))
            case [b"share", factor, _, *_] if len(item.words) <= 18:
                return self._share(factor_of(factor), item.words[2:], choice)
            case [b"show", document, time]:
                return self._show(document_of([document]), time_of([time]))
            case [b"verify"]:
                return [f"sound {len(self.plans)} {sum(len(it.places) for it in self.plans.values())}"]
        raise NoCommand

    def _change(self, change: Change) -> list[str]:
        self._test_change(change)
        self._append(change.entry())
        return [f"ok {len(self.entries)}"]

    def _batch(self, members: tuple[Item, ...]) -> list[str]:
        self._test_batch_texts(sum(len(it.text) for it in members))
        changes = []
        for number, member in enumerate(members, 1):
            try:
                changes.append(change_of(member))
            except NoCommand:
                raise Refused(f"16 BatchLine {number}") from None
        self._test_batch(Batch(tuple(changes)))
        self._append(Batch(tuple(changes)).entry())
        return [f"ok {len(self.entries)}"]

    def _mark(self) -> list[str]:
        self._test_mark()
        self._append(Mark().entry())
        return [f"ok {len(self.entries)}"]

    def _append(self, entry: bytes) -> None:
        if self._length + len(entry) + 5 > MOST_BYTES:
            raise Refused(f"10 Full journal {MOST_BYTES}")
        self._enter(entry)

    def _test_mark(self) -> None:
        if self.is_marked:
            raise Refused("19 HasFormat")

    def _test_batch_texts(self, size: int) -> None:
        """The tests of a batch whose texts have so many bytes together, before its items are looked at."""
        if not self.is_marked:
            raise Refused("18 OldFormat")
        if size > MOST_BATCH:
            raise Refused(f"17 BatchTooLong {MOST_BATCH}")

    def _test_batch(self, batch: Batch) -> None:
        """The tests of a batch of changes: each of them behind those before it."""
        self._test_batch_texts(batch.size())
        ahead = self._copy()
        for number, change in enumerate(batch.changes, 1):
            try:
                ahead._test_change(change)
            except Refused as refusal:
                raise Refused(f"{refusal} in {number}") from None
            ahead._note(change)

    def _copy(self) -> Archive:
        """The same texts, in an archive that may go on by itself."""
        copy = Archive()
        copy.documents = {document: [*versions] for document, versions in self.documents.items()}
        copy.words, copy.last, copy._versions = {*self.words}, self.last, self._versions
        return copy

    def _test_change(self, change: Change) -> None:
        """The tests of an arrival, or of a deletion, in their order."""
        document, time, text = change.document, change.time, change.text
        if text is not None and len(text) > MOST_TEXT:
            raise Refused(f"5 TooLong {MOST_TEXT}")
        try:
            found = set() if text is None else set(keys(text.decode()))
        except UnicodeDecodeError as error:
            raise Refused(f"6 BadText {error.start}") from None
        if time < self.last:
            raise Refused(f"2 TimeBack {self.last}")
        versions = self.documents.get(document)
        if text is None and (not versions or versions[-1].text is None):
            raise Refused("4 NoDocument")
        if versions and versions[-1].time == time:
            raise Refused("3 SameTime")
        if not versions and len(self.documents) >= MOST_DOCUMENTS:
            raise Refused(f"10 Full documents {MOST_DOCUMENTS}")
        if self._versions >= MOST_VERSIONS:
            raise Refused(f"10 Full versions {MOST_VERSIONS}")
        if len(self.words) + len(found - self.words) > MOST_WORDS:
            raise Refused(f"10 Full words {MOST_WORDS}")

    # -- questions

    def postings(self, key: str, start: int = 0, end: int = FOREVER) -> list[Posting]:
        """A word's list, clipped to the times from `start` on and before `end`."""
        found = []
        for document, versions in sorted(self.documents.items()):
            changes = [(it.time, it.counts[key] or None if it.counts else None) for it in versions]
            found += [Posting(document, frequency, *span) for *span, frequency in stretches(changes, start, end)]
        return found

    def _read(self, query: Query, start: int, end: int) -> int:
        """How many postings are read for the times from `start` on and before `end`."""
        count = 0
        for key in query.weights:
            plan = self.plans.get(key)
            if plan is None:
                count += len(self.postings(key))
                continue
            line = Line(self.postings(key, 0, plan.horizon), plan.horizon)
            count += sum(line.size(*it) for it in plan.segments() if it[0] < end and start < it[1])
            count += len(self.postings(key, plan.horizon)) if end > plan.horizon else 0
        return count

    def _find(self, time: int, asked: bytes) -> list[str]:
        query = Query(asked)
        reply = self._found(time, query, len(self.documents))
        self.asked = [*self.asked, *((key, time) for key in query.words)][:MOST_ASKED]
        return reply

    def _top(self, count: int, time: int, asked: bytes) -> list[str]:
        return self._found(time, Query(asked), count)

    def _best(self, count: int, time: int, asked: bytes, choice: Choice) -> list[str]:
        query = Query(asked)
        if not asks_for_any(asked):
            raise Refused("20 NotDisjunction")
        *hits, end = self._found(time, query, count)
        shown = re.match(rb"(?:hit \d+ \d+\n)*end \d+ read \d+ opened (\d+) of \d+\n", choice.shown)
        opened = int(shown[1]) if shown else 0
        sheets = [self._sheet(key, weight, time) for key, weight in query.weights.items()]
        documents = {int(hit.split()[1]) for hit in hits}
        return [*hits, f"{end} opened {opened} of {test_opened(sheets, self._scores(time, query), documents, count, time, opened)}"]

    def _sheet(self, key: str, weight: int, time: int) -> Sheet:
        """The blocks of the sublist that has a time, or the postings that hold it of a list that isn't in blocks."""
        plan = self.plans.get(key)
        if plan and plan.layout == BLOCKS and time < plan.horizon:
            segments = [it for it in plan.segments() if it[0] <= time < it[1]]
            return Sheet(weight, [block for it in segments for block in blocks_of(self.postings(key, 0, plan.horizon), *it)], [])
        return Sheet(weight, [], clipped(self.postings(key), time, time + 1))

    def _scores(self, time: int, query: Query) -> dict[int, int]:
        """What the documents score that a query finds at a time."""
        scores = {document: query.score(self._alive(document, time).counts) for document in self.documents}
        return {document: score for document, score in scores.items() if score is not None}

    def _found(self, time: int, query: Query, most: int) -> list[str]:
        """So many rows at most of what a query finds at a time."""
        rows = sorted((-score, document) for document, score in self._scores(time, query).items())
        hits = [f"hit {document} {-score}" for score, document in rows[:most]]
        return [*hits, f"end {len(hits)} read {self._read(query, time, time + 1)}"]

    def _approx(self, word: str, tolerance: tuple[int, int]) -> list[str]:
        whole = self.postings(self._known(word))
        short = near_postings(whole, tolerance)
        told = ["approx %d %d %d %d" % (it.document, it.start, it.end, it.frequency) for it in short]
        return [*told, f"end {len(short)} of {len(whole)}"]

    def _rough(self, tolerance: tuple[int, int], time: int, asked: bytes) -> list[str]:
        query = Query(asked)
        counts = {document: Counter() for document in self.documents if self._alive(document, time).counts is not None}
        for key in query.weights:
            for it in near_postings(self.postings(key), tolerance):
                if it.start <= time < it.end:
                    counts[it.document][key] = it.frequency
        scores = {document: query.score(held) for document, held in counts.items()}
        rows = sorted((-score, document) for document, score in scores.items() if score is not None)
        near = [f"near {document} {-score}" for score, document in rows]
        return [*near, f"end {len(near)} read {self._read(query, 0, FOREVER)}"]

    def _between(self, start: int, end: int, asked: bytes) -> list[str]:
        query = Query(asked)
        spans = []
        for document, versions in sorted(self.documents.items()):
            scores = [(it.time, query.score(it.counts)) for it in versions]
            spans += ["span %d %d %d %d" % (document, *span) for span in stretches(scores, start, end)]
        return [*spans, f"end {len(spans)} read {self._read(query, start, end)}"]

    def _alive(self, document: int, time: int) -> Version:
        """The version of a document that is alive at a time; it has no text where none is."""
        before = [it for it in self.documents.get(document, ()) if it.time <= time]
        return before[-1] if before else Version(time, None, None)

    def _show(self, document: int, time: int) -> bytes:
        text = self._alive(document, time).text
        return b"none\n" if text is None else b"text %d\n%b\n" % (len(text), text)

    # -- plans

    def _sealed(self, word: str) -> tuple[str, Line]:
        """The key of a word that may be planned, and its list up to the last time."""
        key = self._known(word)
        if not self.postings(key, 0, self.last):
            raise Refused("8 NothingSealed")
        return key, Line(self.postings(key, 0, self.last), self.last)

    def _known(self, word: str) -> str:
        key = one_key(word)
        if key is None:
            raise Refused("7 NotOneTerm")
        if key not in self.words:
            raise Refused("13 UnknownWord")
        return key

    def _propose(self, word: str, factor: tuple[int, int], choice: Choice) -> list[str]:
        _, line = self._sealed(word)
        test_width(line)
        shown = re.match(rb"(segment \d+ \d+ \d+\n)*", choice.shown)[0].splitlines()
        segments = [(int(it.split()[1]), int(it.split()[2])) for it in shown]
        test_segments(line, GUARANTEE, factor, 0, segments)
        return told(line, factor, segments)

    def _certificate(self, word: str) -> list[str]:
        plan = self.plans.get(self._known(word))
        if plan is None or plan.kind != GUARANTEE:
            raise Refused("14 NoPlan")
        return told(Line(self.postings(plan.key, 0, plan.horizon), plan.horizon), plan.factor, plan.segments())

    def _share(self, factor: tuple[int, int], words: list[bytes], choice: Choice) -> list[str]:
        if factor[0] > 16 * factor[1]:
            raise NoCommand
        lines: dict[str, Line] = {}
        for number, word in enumerate([it.decode() for it in words], 1):
            try:
                lines.setdefault(*self._sealed(word))
            except Refused as refusal:
                raise Refused(f"{refusal} in {number}") from None
        shown = re.match(rb"(share \S+ \d+ \d+\n)*", choice.shown)[0].decode().splitlines()
        shares = {it.split()[1]: (int(it.split()[2]), int(it.split()[3])) for it in shown}
        if list(shares) != list(lines):
            raise Differs(f"{shares} aren't shares of {list(lines)}")
        return test_shares(lines, {key: [time for it, time in self.asked if it == key] for key in lines}, factor, shares)

    def _plan(self, word: str, kind: int, factor: tuple[int, int], since: int, choice: Choice) -> list[str]:
        key, line = self._sealed(word)
        if kind == GUARANTEE:
            test_width(line)
        if self.job and self.job.key == key:
            raise Refused("12 Busy")
        if len(choice.entries) <= len(self.entries):
            raise Differs(f"entry {len(self.entries) + 1} is missing, which is to be a plan of `{word}`")
        chosen = read_entry(choice.entries[len(self.entries)])
        if not isinstance(chosen, Plan) or chosen.horizon != self.last:
            raise Differs(f"entry {len(self.entries) + 1} is no plan of `{word}` up to {self.last}")
        plan = self._chosen(chosen, line, kind, factor, since)
        self._append(plan.entry())
        return [f"plan {len(self.entries)} {told_of(line, plan)}"]

    def _chosen(self, chosen: Plan, line: Line, kind: int, factor: tuple[int, int], since: int) -> Plan:
        """The plan that was chosen, tested, as it is to be stored."""
        segments = chosen.segments()
        test_segments(line, kind, factor, since, segments)
        return Plan(chosen.layout, kind, since, factor, self.last, chosen.key, self._placed(chosen.key, segments, chosen))

    def _begin(self, word: str, factor: tuple[int, int], choice: Choice) -> list[str]:
        key, line = self._sealed(word)
        test_width(line)
        if self.job:
            raise Refused("12 Busy" if self.job.key == key else "15 OneJob")
        to_come = [read_entry(it) for it in choice.entries[len(self.entries) :]]
        chosen = next((it for it in to_come if isinstance(it, Plan) and it.key == key), None)
        if chosen is None:
            shown = re.match(rb"begun (\d+) (\d+)\n", choice.shown)
            if shown is None:
                raise Differs(f"no plan of `{word}` is begun")
            self.job = Job(key, None, "", int(shown[2]))
            return [shown[0].decode().removesuffix("\n")]
        if chosen.horizon != self.last:
            raise Differs(f"the plan of `{word}` isn't one up to {self.last}")
        plan = self._chosen(chosen, line, GUARANTEE, factor, 0)
        pages = sum(len(it.pages()) for it in plan.places)
        self.job = Job(key, plan, told_of(line, plan), pages)
        return [f"begun {len(plan.places)} {pages}"]

    def stint(self) -> bytes:
        """Writes the next pages of the plan that was begun; behind the last ones it is stored."""
        job = self.job
        if job.left > STINT_PAGES:
            job.left -= STINT_PAGES
            return b""
        if job.plan is None:
            raise Differs(f"the entry of the plan of `{job.key}` is missing, which was begun")
        self.job = None
        try:
            self._append(job.plan.entry())
        except Refused as refusal:
            return f"no {refusal}\n".encode()
        return f"done {len(self.entries)} {job.told}\n".encode()

    def _placed(self, key: str, segments: list[tuple[int, int]], chosen: Plan) -> tuple[Place, ...]:
        """Where the sublists of a new plan lie: each in the lowest run of free pages. (What stands as the first page of a sublist
        without bytes has no meaning, and is taken as it was chosen. So is each, beside a plan of which nothing is known.)"""
        under_way = [self.job.plan] if self.job and self.job.plan else []
        taken = {page for plan in [*self.plans.values(), *under_way] for place in plan.places for page in place.pages()}
        is_known = not self.job or self.job.plan
        postings, places = self.postings(key, 0, chosen.horizon), []
        for (start, end), was in zip(segments, chosen.places):
            content = sublist(postings, start, end, chosen.layout)
            place = Place(start, 0 if content and is_known else was.page, len(content), sha256(content).digest())
            while not taken.isdisjoint(place.pages()):
                place = Place(start, place.page + 1, place.size, place.digest)
            taken.update(place.pages())
            places.append(place)
        return tuple(places)

    def live_sublists(self) -> Iterator[tuple[int, bytes]]:
        """Each place in Pages, and what it is to hold."""
        for key, plan in self.plans.items():
            postings = self.postings(key, 0, plan.horizon)
            for (start, end), place in zip(plan.segments(), plan.places):
                yield place.page * PAGE, sublist(postings, start, end, plan.layout)


def told_of(line: Line, plan: Plan) -> str:
    """What is told of a plan behind the number of entries."""
    segments = plan.segments()
    space = sum(line.size(*it) for it in segments)
    cost = f" cost {sum(line.cost(*it, plan.since) for it in segments)}" if plan.kind != GUARANTEE else ""
    return f"segments {len(segments)} space {space} full {line.full} horizon {plan.horizon}{cost}"


def change_of(item: Item) -> Change:
    """The arrival or the deletion that an item asks for."""
    match item.words:
        case [b"arrive", document, time, _]:
            return Change(document_of([document]), time_of([time]), item.text)
        case [b"delete", document, time]:
            return Change(document_of([document]), time_of([time]), None)
    raise NoCommand
