"""Feeding changes to an archive: names first, then versions, and the replies told and counted."""

from __future__ import annotations

import sys
import time as clock
from collections import Counter
from dataclasses import dataclass, field
from heapq import merge
from typing import Iterable, Iterator, NamedTuple, Sequence

from . import commands
from .changes import Change, Notes, Tidier
from .collection import Collection, latest
from .errors import ProgramFailed
from .ledger import FILE as LEDGER
from .ledger import Ledger
from .replies import Gone, Ok, Refused, Reply, Text
from .sending import Outbox
from .times import show_time
from .wording import counted

#: So many bytes of text at most are read ahead before the first version is sent.
_AHEAD_BYTES = 1 << 26


class _Sent(NamedTuple):
    """What is kept of a change until its reply comes."""

    change_time: int
    name: str
    place: str
    arrives: bool
    maybe: bool
    #: The change itself, where an earlier import came up to its time.
    again: Change | None


@dataclass
class Tally:
    """How an import went."""

    arrived: int = 0
    ended: int = 0
    refused: Counter[str] = field(default_factory=Counter)
    before: int = 0
    before_until: int = 0
    late: int = 0

    @property
    def refused_all(self) -> bool:
        """There was something, and the archive has none of it."""
        return bool(self.refused) and not (self.arrived or self.ended or self.before)


class Progress:
    """A line on a terminal that tells how far an import is."""

    def __init__(self, shown: bool) -> None:
        self._shown = shown and sys.stderr.isatty()
        self._start = self._last = clock.monotonic()
        self._count = 0

    def step(self, count: int, at: int) -> None:
        """So many changes more were sent, the last of this time."""
        self._start = self._start if self._count else clock.monotonic()
        self._count += count
        if self._is_due:
            rate = self._count / max(clock.monotonic() - self._start, 0.001)
            self.show(f"{self._count:,} changes, {show_time(at)}, {rate:,.0f} a second")

    @property
    def _is_due(self) -> bool:
        return self._shown and clock.monotonic() - self._last >= 0.2

    def show(self, text: str) -> None:
        if self._is_due:
            self._last = clock.monotonic()
            sys.stderr.write(f"\r\x1b[K{text}")
            sys.stderr.flush()

    def clear(self) -> None:
        if self._shown:
            sys.stderr.write("\r\x1b[K")
            sys.stderr.flush()


class Feeder:
    """Feeds the changes of one source to an archive, from where the last import of it ended, and notes how far."""

    #: What is said of changes.
    taken, refused = "are in the archive", "refused"

    def __init__(self, collection: Collection, source: str, words: str, notes: Notes, progress: Progress) -> None:
        """`words` import the source again."""
        self._collection = collection
        self._ledger = Ledger(collection.folder / LEDGER)
        self._source = source
        self._words = words
        self._lasts = collection.last_times()
        self._last = latest(self._lasts)
        self._done = self._ledger.done(source, self._last)
        self._tidier = Tidier(collection.names.__contains__, notes)
        self._notes = notes
        self._progress = progress
        self.tally = Tally(before_until=self._done.end if self._done else 0)
        self._begun = False
        self._changes = 0
        #: Of these the ones of times up to which the source was imported before, and those of them that were taken now.
        self._again = self._behind = 0
        self._refused_times: list[int] = []
        #: Of the second at which an earlier import ended, what the archive refused: it has a change of its own then.
        self._same: list[Change] = []
        #: Feeders that feed together have one.
        self.outbox = Outbox(collection, self._lasts, progress.step)

    def feed(self, changes: Iterable[Change]) -> None:
        others = [source for source in self._ledger.stopped() if source != self._source]
        if others and len(self._lasts) > 1:
            self._notes.tell(f"warning: an import was stopped; what shards miss of it is lost if it isn't imported first: {', '.join(others)}")
        for change in self.wanted(changes):
            self.take(change)
        self.outbox.send()
        self.finish()

    def wanted(self, changes: Iterable[Change]) -> Iterator[Change]:
        """The changes that lie in time to be sent. The others are counted, or told as refused."""
        for change in self._weighed(self._tidier.tidied(changes)):
            self._changes += not change.maybe
            self._again += self._is_again(change) and not change.maybe
            if self._in_time(change):
                yield change
            elif self._reached(change):
                # Fed by an earlier import, or refused by it and told then.
                self.tally.before += 1
                if self._done and not self._done.fed(change.time):
                    self._tidier.forget(change.name)
            else:
                self._tidier.forget(change.name)
                self._refuse(self._sent(change), Refused(2, "TimeBack", str(self._last)))

    def begin(self, beside: bool = False) -> None:
        """Notes the beginning, once, before anything is sent; `beside` the source that began before."""
        if not self._begun:
            self._ledger.begin(self._source, self._last, self._words, beside)
            self._begun = True

    def finish(self) -> None:
        """Waits for the replies, and notes and counts how far the source was imported."""
        self.outbox.settle()
        self._note()
        for change in self._same:
            if not self._has(change):
                self._notes.add("another text than the archive has of that second, left out", change.place)
        if self._done and self._done.changes is not None:
            self.tally.late = max(0, self._again - self._done.changes - self._behind)

    def prospect(self) -> list[str]:
        """What an import that was only tried tells more."""
        return []

    def _has(self, change: Change) -> bool:
        """Whether the archive has at this change's time what it brings."""
        doc = self._collection.names.give(change.name)
        reply = self._collection.ask_side(self._collection.side_of(doc), commands.show(doc, change.time))
        return reply == (Gone() if change.text is None else Text(change.text))

    def _in_time(self, change: Change) -> bool:
        return self._last is None or change.time >= self._last or self._is_missed(change)

    def _is_missed(self, change: Change) -> bool:
        """The last import of the source was stopped, and the shard of the document hadn't come to this time. Names are
        durable before anything is sent, so what has none was sent to no shard."""
        done, names = self._done, self._collection.names
        if not done or done.stopped is None or change.time < done.stopped or change.name not in names:
            return False
        last = self._lasts[self._collection.side_of(names.give(change.name))]
        return last is None or change.time >= last

    def _reached(self, change: Change) -> bool:
        return self._done is not None and self._done.reached(change.time)

    def _is_again(self, change: Change) -> bool:
        """The source was imported up to this time before."""
        return self._done is not None and change.time <= self._done.end

    def _weighed(self, changes: Iterator[Change]) -> Iterator[Change]:
        """The changes. Where more lie before the archive's last time than behind it, this is told before any of those
        behind it is sent; so they are read ahead until there are as many."""
        early = size = 0
        ahead: list[Change] = []
        for change in changes:
            if not self._in_time(change):
                early += not self._reached(change)
                yield change
                continue
            ahead.append(change)
            size += len(change.text or b"")
            if len(ahead) >= early or size >= _AHEAD_BYTES:
                break
        if early > len(ahead):
            assert self._last is not None
            self._notes.tell(
                f"warning: {counted(early, 'change')} of {early + len(ahead)} lie before the archive's last time, "
                f"{show_time(self._last)}, and are refused: import what is oldest first, or all at once"
            )
        yield from ahead
        yield from changes

    def _note(self) -> None:
        self.begin()
        last = self._collection.last_time()
        until_last = self._changes - sum(last is None or time > last for time in self._refused_times)
        self._ledger.end(self._source, last, until_last, not self.tally.refused_all)

    def take(self, change: Change) -> None:
        """Has the change sent, soon or with others."""
        if len(change.text or b"") > commands.MOST_TEXT:
            # The archive would refuse it, by its length alone.
            self._refuse(self._sent(change), Refused(5, "TooLong", str(commands.MOST_TEXT)))
            return
        self._put(change)

    def _put(self, change: Change) -> None:
        self.outbox.put(change, self._sent(change), self)

    def answered(self, sent: _Sent, reply: Reply) -> None:
        """Tells and counts what came of a change."""
        match reply:
            case Ok():
                self._behind += sent.again is not None and not sent.maybe
                self.tally.arrived += sent.arrives
                self.tally.ended += not sent.arrives
            case Refused(name="SameTime" | "NoDocument") if sent.again:
                self.tally.before += 1
                self._same.append(sent.again)
            case Refused(name="NoDocument") if sent.maybe:
                self._notes.count("ends of documents that had none", f"{sent.name} ({sent.place})")
            case Refused():
                self._refuse(sent, reply)
            case _:
                raise ProgramFailed(f"tt_archive answered {reply} to a version")

    def _refuse(self, sent: _Sent, refusal: Refused) -> None:
        self.tally.refused[refusal.name] += 1
        self._refused_times.append(sent.change_time)
        self._notes.add(f"refused: {refusal}", f"{show_time(sent.change_time)} {sent.name} ({sent.place})")

    def _sent(self, change: Change) -> _Sent:
        again = change if self._is_again(change) else None
        return _Sent(change.time, change.name, change.place, change.text is not None, change.maybe, again)


def feed_together(streams: Sequence[tuple[Feeder, Iterable[Change]]]) -> None:
    """Feeds what each of the feeders wants, in one order of time over all."""
    for feeder, _ in streams:
        feeder.outbox = streams[0][0].outbox
        feeder.begin(beside=feeder is not streams[0][0])
    for feeder, change in merge(*(_tagged(*stream) for stream in streams), key=lambda pair: pair[1].time):
        feeder.take(change)
    for feeder, _ in streams:
        feeder.outbox.send()
        feeder.finish()


def _tagged(feeder: Feeder, changes: Iterable[Change]) -> Iterator[tuple[Feeder, Change]]:
    return ((feeder, change) for change in changes)
