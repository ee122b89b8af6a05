"""What reaches one archive of a collection: the links to its first place and its copies.

A link is a program (`program.py`), or a way to one that another process runs (`serving/visit.py`): commands are written
to it, and replies read from it, without waiting. An `Asked` side uses one link at a time, and goes on with a copy where
that is lost. A `Fed` side sends all to all copies, and takes a reply when all have given the same.
"""

from __future__ import annotations

from collections import deque
from selectors import EVENT_READ, BaseSelector
from typing import Any, Callable, Iterator, NamedTuple, Protocol, Sequence

from . import commands
from .errors import InUse, ProgramFailed, ToolError
from .places import Places
from .program import AT_WORK, Shard
from .replies import Gone, Refused, Reply
from .times import show_time
from .wording import say

#: What is done with a reply: the token given with the command, and the reply.
Handler = Callable[[Any, Reply], None]

#: Answered when an archive is loaded, and with its last time.
FIRST_QUESTION = commands.show(commands.NO_DOCUMENT, 0)
LAST_TIME = commands.delete(commands.NO_DOCUMENT, 0)


class Link(Protocol):
    """A running program, or a way to one."""

    shard: Shard
    ended: bool

    def fileno(self) -> int: ...

    def write(self, script: memoryview) -> memoryview: ...

    def wait_for_room(self) -> None: ...

    def replies(self) -> Iterator[Reply]: ...

    def end_input(self) -> None: ...

    def wait(self) -> tuple[int, str]: ...


class End(NamedTuple):
    """How a link ended."""

    shard: Shard
    status: int
    said: str


class Sent(NamedTuple):
    """A command that isn't answered yet; its words are kept where another link may have to be asked."""

    token: Any
    handle: Handler
    script: bytes


#: Opens the link to a place, by its number in the archive's line.
Reach = Callable[[int], Link]


class Side:
    """One archive. Handlers get the replies in the order of what was sent."""

    def __init__(self, places: Places, reach: Reach, printing: BaseSelector) -> None:
        self.places = places
        self.under_way: deque[Sent] = deque()
        self.links: list[Link] = []
        self._reach = reach
        self._printing = printing

    def open(self) -> None:
        """Opens what is needed of the links, and sends a first question."""
        raise NotImplementedError

    def _lost(self, link: Link, why: ProgramFailed) -> None:
        """What is done where a link has ended: another takes its place, or it is an error."""
        raise NotImplementedError

    def send(self, script: bytes, tokens: Sequence[Any], handle: Handler, meanwhile: Callable[[], None]) -> None:
        """Writes commands that have one reply each; `meanwhile` takes replies where there is no room for them."""
        self.under_way.extend(Sent(token, handle, b"") for token in tokens)
        self._write(script, meanwhile)

    def take(self, link: Link) -> None:
        """Handles the replies of a link that are there."""
        try:
            for reply in replies_of(link):
                self._answered(link, reply)
        except ProgramFailed as failed:
            self._lost(link, failed)

    def end(self) -> None:
        """Tells the programs that nothing more will come."""
        for link in self.links:
            link.end_input()

    def ends(self) -> list[End]:
        return [End(link.shard, *link.wait()) for link in self.links]

    def _write(self, script: bytes, meanwhile: Callable[[], None]) -> None:
        for link in list(self.links):
            rest = memoryview(script)
            while link in self.links and (rest := link.write(rest)):
                meanwhile()
                link.wait_for_room()

    def _answered(self, link: Link, reply: Reply) -> None:
        if not self.under_way:
            raise ProgramFailed(f"{link.shard}: a reply to nothing that was asked: {reply}")
        sent = self.under_way.popleft()
        sent.handle(sent.token, reply)

    def _join(self, place: int) -> Link:
        link = self._reach(place)
        self.links.append(link)
        self._printing.register(link, EVENT_READ, (self, link))
        return link

    def _leave(self, link: Link) -> None:
        self._printing.unregister(link)
        self.links.remove(link)
        link.end_input()
        link.wait()


class Asked(Side):
    """A side that only asks. Where a place is lost, the next one is asked what isn't answered yet, but never of times of
    which it may not have all."""

    def __init__(self, places: Places, reach: Reach, printing: BaseSelector, level: Sequence[bool], again: bool = False) -> None:
        """`level` tells of each place whether it has all that was acknowledged. `again` says that a place which was
        lost may be there again at once, so that all are tried twice."""
        super().__init__(places, reach, printing)
        self._level = level
        self._tries = deque([*range(len(places))] * (2 if again else 1))
        #: The end of what a copy that isn't level surely has; no end where there is None.
        self._until: int | None = None

    def open(self) -> None:
        self._next(None)

    def send(self, script: bytes, tokens: Sequence[Any], handle: Handler, meanwhile: Callable[[], None]) -> None:
        if not self._tries and self._until is None:
            super().send(script, tokens, handle, meanwhile)
            return
        [token] = tokens  # one question at a time, so that it can be asked again
        self._check(script)
        self.under_way.append(Sent(token, handle, script))
        self._write(script, meanwhile)

    def _lost(self, link: Link, why: ProgramFailed) -> None:
        self._leave(link)
        self._next(why)

    def _next(self, why: ProgramFailed | None) -> None:
        """Opens the next place that is there and may be asked, and asks it what isn't answered."""
        while self._tries:
            place = self._tries.popleft()
            try:
                link = self._join(place)
                if why:
                    self._until = None if self._level[place] else self._last_time(link)
                    for sent in self.under_way:
                        self._check(sent.script)
                    say(f"{why}; {link.shard} is asked in its place")
            except InUse:
                raise
            except ToolError as failed:
                if self.links:
                    self._leave(self.links[0])
                why = _both(why, failed)
                continue
            self._write(b"".join(sent.script for sent in self.under_way), lambda: self.take(link))
            return
        raise why or ProgramFailed(f"{self.places[0]}: there is no place to ask")

    def _last_time(self, link: Link) -> int:
        """Before this time a copy has all, wherever its feeding stopped."""
        [reply] = exchange(link, LAST_TIME, 1)
        return int(reply.detail) if isinstance(reply, Refused) and reply.name == "TimeBack" else 0

    def _check(self, question: bytes) -> None:
        if self._until is None:
            return
        end = end_of(question)
        if end is None or end > self._until:
            raise ProgramFailed(
                f"{self.links[0].shard} is a copy that may lack what came at {show_time(self._until)} and later, and isn't asked of it"
            )


class Fed(Side):
    """A side that changes the archive: all its places get all, and what one refuses all refuse. A copy that is lost is
    struck: it gets nothing more, and isn't level at the end. Nothing is changed without the first place."""

    def __init__(self, places: Places, reach: Reach, printing: BaseSelector) -> None:
        super().__init__(places, reach, printing)
        self._said: dict[int, deque[Reply]] = {}

    def open(self) -> None:
        for place in range(len(self.places)):
            try:
                self._said[id(self._join(place))] = deque()
            except InUse:
                raise
            except (ToolError, OSError) as failed:
                if place == 0:
                    raise
                self._strike(self.places[place], str(failed))

    def strike(self, copy: Link, why: str) -> None:
        """Leaves out a copy that can't be made level, unless it was the first place that was lost meanwhile."""
        if self.links[0].ended:
            self._lost(self.links[0], ProgramFailed(why))
        self._leave(copy)
        self._strike(copy.shard, why)

    def takes_batches(self) -> bool:
        """Whether all its places do. Nothing else is under way."""
        found = []
        for link in list(self.links):
            try:
                found.append(takes_batches(link))
            except ProgramFailed as failed:
                self._lost(link, failed)
        return all(found)

    @property
    def copies(self) -> list[Link]:
        """The copies that are there, if the first place is."""
        return self.links[1:]

    def take(self, link: Link) -> None:
        if len(self.places) == 1:
            super().take(link)
            return
        said = self._said[id(link)]
        try:
            said.extend(replies_of(link))
        except ProgramFailed as failed:
            self._lost(link, failed)
        self._compare()

    def _compare(self) -> None:
        """Takes each reply that all have given."""
        while self.links and all(self._said[id(link)] for link in self.links):
            replies = [self._said[id(link)].popleft() for link in self.links]
            for link, reply in zip(self.links, replies):
                if reply != replies[0]:
                    raise ProgramFailed(
                        f"{link.shard} answered `{reply}` where {self.links[0].shard} answered `{replies[0]}`, so they are no copies of "
                        "one another: take the wrong one out of shards.tsv"
                    )
            self._answered(self.links[0], replies[0])

    def _lost(self, link: Link, why: ProgramFailed) -> None:
        if link is self.links[0]:
            more = "; its copies can be asked, and nothing is changed without it" if len(self.places) > 1 else ""
            raise ProgramFailed(f"{why}{more}")
        self._leave(link)
        self._strike(link.shard, str(why))

    def _strike(self, place: Shard, why: str) -> None:
        prefix = f"{place}: "
        say(f"the copy {place} is left out, and the next change brings it up: {why.removeprefix(prefix)}")


def end_of(question: bytes) -> int | None:
    """The first time that an answer doesn't rest on; None where it rests on all."""
    match question.split(b" "):
        case [b"find", time, *_] | [b"show", _, time]:
            return int(time) + 1
        case [b"between", _, end, *_]:
            return int(end)
    return None


def takes_batches(link: Link) -> bool:
    """Whether a program carries batches out, and its journal has the mark. Nothing else is under way in it."""
    return Refused(16, "BatchLine", "1") in _exchange(link, commands.asks_for_batches(), lambda replies: Gone() in replies)


def exchange(link: Link, script: bytes, count: int) -> list[Reply]:
    """The replies of one link to commands; nothing else is under way in it."""
    return _exchange(link, script, lambda replies: len(replies) >= count)


def _exchange(link: Link, script: bytes, are_all: Callable[[list[Reply]], bool]) -> list[Reply]:
    import select  # loaded where something is changed

    poll = select.poll()
    poll.register(link.fileno(), select.POLLIN)
    rest = memoryview(script)
    replies: list[Reply] = []
    while not are_all(replies):
        rest = link.write(rest)
        if poll.poll(0 if rest else None):
            replies += replies_of(link)
        elif rest:
            link.wait_for_room()
    return replies


def replies_of(link: Link) -> Iterator[Reply]:
    """The replies that are there. An error where the program ended, or what it prints is none."""
    wrong = ""
    try:
        yield from link.replies()
    except ProgramFailed as failed:
        wrong = str(failed)
    if wrong or link.ended:
        link.end_input()
        status, said = link.wait()
        raise failed_end(End(link.shard, status, said or wrong))


def failed_end(end: End) -> ToolError:
    """Why a program ended before it was told to."""
    if end.status == AT_WORK:
        return InUse(f"another program is at work in {end.shard}, which no tt of this folder started")
    return ProgramFailed(f"{end.shard}: {explained_end(end)}")


def explained_end(end: End) -> str:
    from .damage import explained, killed  # loaded where something is wrong

    return killed(end.status) or explained(end.said, end.shard) or f"tt_archive ended with status {end.status}"


def _both(earlier: ProgramFailed | None, later: ToolError) -> ProgramFailed:
    return ProgramFailed(f"{earlier}; {later}" if earlier else str(later))
