"""A history of versions, kept as an archive's journal, and the answers by scanning it."""

from __future__ import annotations

import fcntl
import os
from bisect import bisect_right
from collections import Counter
from dataclasses import dataclass
from pathlib import Path
from struct import error

from .entries import BATCH, CLOSED, HEADER, MARK, MOST_TEXT, NOW, OPEN, PLAN, THE_MARK, Act, NotArchive, acts_of, records, spelled_batch, test_tag
from .planning import GUARANTEE, SINCE, UNIFORM, Plan, Posting, Stored, Table, shared
from .words import BadQuery, Query, any_of, one_term, parse, terms

#: The texts of a batch have at most so many bytes together.
MOST_BATCH = 16_777_216
#: So many pairs of a word and a time are kept of what a run was asked.
MOST_ASKED = 1 << 20
#: A test may ask for an archive that is full sooner.
MOST_DOCUMENTS = int(os.environ.get("FAKE_DOCUMENTS", 1 << 20))


class Refusal(Exception):
    """A number, a name and a detail."""


@dataclass(frozen=True)
class Version:
    """From a time on, a text, or none."""

    time: int
    text: bytes | None
    counts: Counter[str]


class History:
    """An archive in a folder, which it locks as it is opened; where another has the lock, a BlockingIOError tells, and where the
    journal is no archive's, a NotArchive."""

    def __init__(self, folder: Path, locks: bool = True) -> None:
        self._path = folder / "archive.journal"
        self._versions: dict[int, list[Version]] = {}
        self._last: int | None = None
        #: The entries, in their order.
        self.bodies: list[bytes] = []
        self._plans: dict[str, Stored] = {}
        self._lists: dict[str, list[Posting]] = {}
        self._gate = len(HEADER)
        self._is_marked = False
        self._asked: list[tuple[str, int]] = []
        self._file = os.fdopen(os.open(self._path, os.O_RDWR | os.O_CREAT, 0o666), "r+b")
        if locks:
            fcntl.flock(self._file, fcntl.LOCK_EX | fcntl.LOCK_NB)
        if self._path.stat().st_size <= len(HEADER) + 1:
            self._path.write_bytes(HEADER + CLOSED)
        self._load()

    def change(self, act: Act) -> list[str]:
        self._test(act)
        self._append(act.spelled())
        self._take_in(act)
        return [f"ok {len(self.bodies)}"]

    def batch(self, members: list[Act | None]) -> list[str]:
        """Carries out all acts of a batch or none; a member that is none is an item of another kind."""
        acts = [act for act in members if act]
        self._test_together(sum(len(act.text or b"") for act in acts))
        if None in members:
            raise Refusal(f"16 BatchLine {members.index(None) + 1}")
        self._take_all_in(acts)
        self._append(spelled_batch(acts))
        return [f"ok {len(self.bodies)}"]

    def mark(self) -> list[str]:
        if self._is_marked:
            raise Refusal("19 HasFormat")
        self._append(THE_MARK)
        self._is_marked = True
        return [f"ok {len(self.bodies)}"]

    def take(self, body: bytes) -> None:
        """Takes the next entry of an archive that this one follows. A NotArchive tells that it can't be."""
        test_tag(body, 0)
        if body[0] == PLAN:
            self._test_plan(body)
        self._enter(0, body)
        self._append(body)

    def show(self, doc: int, time: int) -> bytes | None:
        version = self._at(doc, time)
        return version.text if version else None

    def find(self, time: int, expr: str, count: int | None = None) -> list[str]:
        """The rows that match, or the first so many of them."""
        query = self._query(expr)
        rows = []
        for doc in self._versions:
            version = self._at(doc, time)
            if version and version.text is not None and query.matches(version.counts.__getitem__):
                rows.append((-query.score(version.counts.__getitem__), doc))
        read = sum(self._read_at(word, time) for word in query.words)
        rows = sorted(rows)[:count]
        return [*(f"hit {doc} {-score}" for score, doc in rows), f"end {len(rows)} read {read}"]

    def find_and_note(self, time: int, expr: str) -> list[str]:
        """The same, which counts for shares."""
        query = self._query(expr)
        self._asked += [(word, time) for word in sorted(query.words)]
        del self._asked[MOST_ASKED:]
        return self.find(time, expr)

    def best(self, time: int, expr: str, count: int) -> list[str]:
        """The first rows of words joined by `or`. Sublists are flat here, so there are no blocks."""
        self._query(expr)
        if not any_of(expr):
            raise Refusal("20 NotDisjunction")
        *rows, end = self.find(time, expr, count)
        return [*rows, f"{end} opened 0 of 0"]

    def share(self, factor: tuple[int, int], words: list[str]) -> list[str]:
        tables: dict[str, Table] = {}
        for index, word in enumerate(words, 1):
            try:
                tables.setdefault(*self._table(word))
            except Refusal as refusal:
                raise Refusal(f"{refusal} in {index}") from None
        times = {key: [time for word, time in self._asked if word == key] for key in tables}
        unit, budget, picks = shared(list(tables.values()), list(times.values()), *factor)
        told = [f"share {key} {charge} {cost}" for key, (charge, cost) in zip(tables, picks)]
        return [*told, f"end {len(tables)} unit {unit} budget {budget} cost {sum(cost for _, cost in picks)}"]

    def approx(self, word: str, tolerance: tuple[int, int]) -> list[str]:
        postings = self._list(self._known(word))
        short = _shortened(postings, tolerance)
        return [
            *(f"approx {doc} {left} {right} {count}" for doc, count, left, right in short),
            f"end {len(short)} of {len(postings)}",
        ]

    def rough(self, tolerance: tuple[int, int], time: int, expr: str) -> list[str]:
        query = self._query(expr)
        near = {word: self._near_at(word, tolerance, time) for word in query.words}
        rows = []
        for doc in self._versions:
            version = self._at(doc, time)
            if version and version.text is not None and query.matches(lambda word: near[word].get(doc, 0)):
                rows.append((-query.score(lambda word: near[word].get(doc, 0)), doc))
        read = sum(self._read_between(word, 0, NOW) for word in query.words)
        return [*(f"near {doc} {-score}" for score, doc in sorted(rows)), f"end {len(rows)} read {read}"]

    def _near_at(self, key: str, tolerance: tuple[int, int], time: int) -> dict[int, int]:
        """How often documents have a word at a time, by its approximation."""
        short = _shortened(self._list(key), tolerance)
        return {doc: count for doc, count, left, right in short if left <= time < right}

    def between(self, start: int, end: int, expr: str) -> list[str]:
        query = self._query(expr)
        rows: list[list[int]] = []
        for doc in sorted(self._versions):
            for left, right, version in self._lives(doc):
                left, right = max(left, start), min(right, end)
                if left >= right or version.text is None or not query.matches(version.counts.__getitem__):
                    continue
                score = query.score(version.counts.__getitem__)
                if rows and (rows[-1][0], rows[-1][2], rows[-1][3]) == (doc, left, score):
                    rows[-1][2] = right
                else:
                    rows.append([doc, left, right, score])
        read = sum(self._read_between(word, start, end) for word in query.words)
        return [*(f"span {d} {a} {b} {s}" for d, a, b, s in rows), f"end {len(rows)} read {read}"]

    def plan(self, word: str, kind: int, factor: tuple[int, int], since: int) -> list[str]:
        key, table = self._table(word)
        cost = ""
        if kind == GUARANTEE:
            plan, _ = table.least(*factor)
        else:
            plan, expected = table.bounded(*factor, since)
            cost = f" cost {expected}"
        self._append(Stored(key, kind, since, factor, plan).encode())
        self._plans[key] = Stored(key, kind, since, factor, plan)
        return [
            f"plan {len(self.bodies)} segments {len(plan.sizes)} space {plan.space} full {table.full} horizon {self._last}{cost}"
        ]

    def propose(self, word: str, factor: tuple[int, int]) -> list[str]:
        _, table = self._table(word)
        return _pieces(table, *table.least(*factor))

    def certificate(self, word: str) -> list[str]:
        key = self._known(word)
        stored = self._plans.get(key)
        if stored is None or stored.kind != GUARANTEE:
            raise Refusal("14 NoPlan")
        plan = stored.plan
        table = Table(_clipped(self._list(key), 0, plan.cuts[-1]), plan.cuts[-1])
        return _pieces(table, plan, table.least(*stored.factor)[1])

    def verify(self) -> list[str]:
        return [f"sound {len(self._plans)} {sum(len(stored.plan.sizes) for stored in self._plans.values())}"]

    def _test(self, act: Act) -> None:
        if len(act.text or b"") > MOST_TEXT:
            raise Refusal(f"5 TooLong {MOST_TEXT}")
        try:
            (act.text or b"").decode()
        except UnicodeDecodeError as error:
            raise Refusal(f"6 BadText {error.start}") from None
        if self._last is not None and act.time < self._last:
            raise Refusal(f"2 TimeBack {self._last}")
        versions = self._versions.get(act.doc)
        if act.text is None and (not versions or versions[-1].text is None):
            raise Refusal("4 NoDocument")
        if versions and versions[-1].time == act.time:
            raise Refusal("3 SameTime")
        if not versions and len(self._versions) >= MOST_DOCUMENTS:
            raise Refusal(f"10 Full documents {MOST_DOCUMENTS}")

    def _test_together(self, size: int) -> None:
        if not self._is_marked:
            raise Refusal("18 OldFormat")
        if size > MOST_BATCH:
            raise Refusal(f"17 BatchTooLong {MOST_BATCH}")

    def _test_plan(self, body: bytes) -> None:
        """Tests that a plan is one that this program may have stored. Its sublists lie nowhere."""
        try:
            stored = Stored.decode(body)
        except (ValueError, LookupError, error):
            raise NotArchive(0) from None
        live, (over, under), horizon = self._plans.get(stored.key), stored.factor, stored.plan.cuts[-1]
        postings = _clipped(self._list(stored.key), 0, horizon)
        may_be = stored.encode() == body and stored.kind in (GUARANTEE, UNIFORM, SINCE) and over >= under >= 1
        is_late = horizon <= (self._last or 0) and not (live and horizon < live.plan.cuts[-1])
        if not (may_be and is_late and postings and Table(postings, horizon).promises(stored)):
            raise NotArchive(0)

    def _take_all_in(self, acts: list[Act]) -> None:
        """Each act behind those before it. Where one is refused, they are let go again."""
        last = self._last
        for index, act in enumerate(acts, 1):
            try:
                self._test(act)
            except Refusal as refusal:
                for earlier in acts[: index - 1]:
                    self._versions[earlier.doc].pop()
                    if not self._versions[earlier.doc]:
                        del self._versions[earlier.doc]
                self._last = last
                self._lists.clear()
                raise Refusal(f"{refusal} in {index}") from None
            self._take_in(act)

    def _query(self, expr: str) -> Query:
        try:
            return parse(expr)
        except BadQuery as fault:
            raise Refusal(f"11 BadQuery {fault}") from None

    def _known(self, word: str) -> str:
        key = one_term(word)
        if key is None:
            raise Refusal("7 NotOneTerm")
        if not any(version.counts[key] for versions in self._versions.values() for version in versions):
            raise Refusal("13 UnknownWord")
        return key

    def _table(self, word: str) -> tuple[str, Table]:
        key = self._known(word)
        postings = _clipped(self._list(key), 0, self._last or 0)
        if not postings:
            raise Refusal("8 NothingSealed")
        return key, Table(postings, self._last or 0)

    def _at(self, doc: int, time: int) -> Version | None:
        versions = self._versions.get(doc, [])
        index = bisect_right(versions, time, key=lambda version: version.time)
        return versions[index - 1] if index else None

    def _lives(self, doc: int) -> list[tuple[int, int, Version]]:
        versions = self._versions[doc]
        ends = [version.time for version in versions[1:]] + [NOW]
        return [(version.time, end, version) for version, end in zip(versions, ends)]

    def _list(self, key: str) -> list[Posting]:
        if key not in self._lists:
            self._lists[key] = self._scanned(key)
        return self._lists[key]

    def _scanned(self, key: str) -> list[Posting]:
        postings: list[Posting] = []
        for doc in sorted(self._versions):
            for start, end, version in self._lives(doc):
                count = version.counts[key]
                if not count:
                    continue
                if postings and postings[-1][:2] == (doc, count) and postings[-1][3] == start:
                    postings[-1] = (doc, count, postings[-1][2], end)
                else:
                    postings.append((doc, count, start, end))
        return postings

    def _read_at(self, key: str, time: int) -> int:
        plan = self._stored(key)
        if plan and time < plan.cuts[-1]:
            return plan.read_at(time)
        return self._tail(key, plan)

    def _read_between(self, key: str, start: int, end: int) -> int:
        plan = self._stored(key)
        stored = plan.read_between(start, end) if plan else 0
        return stored + (self._tail(key, plan) if not plan or end > plan.cuts[-1] else 0)

    def _tail(self, key: str, plan: Plan | None) -> int:
        return len(_clipped(self._list(key), plan.cuts[-1] if plan else 0, NOW))

    def _stored(self, key: str) -> Plan | None:
        stored = self._plans.get(key)
        return stored.plan if stored else None

    def _append(self, body: bytes) -> None:
        for place, part in ((self._gate + 1, len(body).to_bytes(4, "big") + body + CLOSED), (self._gate, OPEN)):
            self._file.seek(place)
            self._file.write(part)
            self._file.flush()
        self._pass(body)

    def _pass(self, body: bytes) -> None:
        self.bodies.append(body)
        self._gate += 5 + len(body)

    def _take_in(self, act: Act) -> None:
        counts = Counter[str]() if act.text is None else terms(act.text.decode())
        self._versions.setdefault(act.doc, []).append(Version(act.time, act.text, counts))
        self._last = act.time
        self._lists.clear()

    def _load(self) -> None:
        for gate, body in records(self._path.read_bytes()):
            self._enter(gate, body)
            self._pass(body)

    def _enter(self, gate: int, body: bytes) -> None:
        """Carries out what an entry says."""
        if body[0] == PLAN:
            stored = Stored.decode(body)
            self._plans[stored.key] = stored
        elif body[0] == MARK:
            if self._is_marked:
                raise NotArchive(gate)
            self._is_marked = True
        else:
            self._enter_acts(gate, body)

    def _enter_acts(self, gate: int, body: bytes) -> None:
        acts = acts_of(body, gate + 5)
        try:
            if body[0] == BATCH:
                self._test_together(sum(len(act.text or b"") for act in acts))
            self._take_all_in(acts)
        except Refusal:
            raise NotArchive(gate) from None


def _clipped(postings: list[Posting], start: int, end: int) -> list[Posting]:
    return [
        (doc, count, max(left, start), min(right, end))
        for doc, count, left, right in postings
        if left < end and right > start
    ]


def _shortened(postings: list[Posting], tolerance: tuple[int, int]) -> list[Posting]:
    """Neighbours are joined while one frequency is near all of them; the least such one is told."""
    short: list[Posting] = []
    most = 0
    for doc, count, left, right in postings:
        slack = count * tolerance[0] // tolerance[1]
        if short and (short[-1][0], short[-1][3]) == (doc, left) and max(short[-1][1], count - slack) <= min(most, count + slack):
            short[-1] = (doc, max(short[-1][1], count - slack), short[-1][2], right)
            most = min(most, count + slack)
        else:
            short.append((doc, count - slack, left, right))
            most = count + slack
    return short


def _pieces(table: Table, plan: Plan, best: list[int]) -> list[str]:
    segments = zip(plan.cuts, plan.cuts[1:], plan.sizes)
    return [
        *(f"segment {left} {right} {size}" for left, right, size in segments),
        *(f"node {time} {space}" for time, space in zip(table.boundaries, best)),
        f"end {len(plan.sizes)} space {plan.space}",
    ]
