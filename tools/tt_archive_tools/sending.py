"""Changes on their way to the programs: in batches where an archive may have them, and otherwise one by one.

A batch is one command and has one reply. So an archive has one batch under way, while the next one is gathered: what is
kept of changes is bounded by two batches. A refused batch changed nothing, and its reply names an item. What stood before
that one is sent again as a batch; behind it some changes go one by one, in case more of them are refused, and the others
as a batch. So the order stays, and nothing is sent many times, however many are refused. Changes of the second with which
an archive ended before may be in it already, and go one by one too.
"""

from __future__ import annotations

from collections import defaultdict, deque
from typing import Any, Callable, NamedTuple, Protocol, Sequence

from . import commands
from .changes import Change
from .collection import Collection
from .errors import ProgramFailed
from .replies import Refused, Reply

#: So many changes are gathered before they are sent, and then twice as many each time, so that the program begins soon.
_FIRST = 16
#: At most so many are gathered, or so many bytes of text, where they go one by one, and where they go in batches.
_MOST, _MOST_BYTES = 256, 1 << 20
_MOST_OF_BATCH, _MOST_BYTES_OF_BATCH = commands.MOST_OF_BATCH, 8_000_000
#: So many go one by one behind the first of a batch that is refused, and twice as many behind each further one.
_APART = 16
#: What refuses an item of a batch, or the whole, and would not refuse the changes.
_NO_BATCH = ("Line", "BatchLine", "BatchTooLong", "OldFormat")


class Origin(Protocol):
    """Who has changes sent."""

    def begin(self) -> None:
        """Called before something of it is sent."""

    def answered(self, token: Any, reply: Reply) -> None:
        """Called for each change, with the token that came with it and the reply that it has, or would have by itself."""


class _Act(NamedTuple):
    """A change as a command, and who is told of the reply."""

    time: int
    line: bytes
    token: Any
    origin: Origin


class _Turn(NamedTuple):
    """What is sent to an archive before the next reply is waited for: a batch, or changes one by one."""

    acts: list[_Act]
    together: bool
    apart: int = _APART


class Outbox:
    """Gathers changes, and sends them in their order."""

    def __init__(self, collection: Collection, lasts: Sequence[int | None], progress: Callable[[int, int], None]) -> None:
        """`lasts` are the last times of the archives before. `progress` is told how many changes were sent, and the time of
        the last one."""
        self._collection = collection
        self._lasts = lasts
        self._progress = progress
        self._gathered: list[tuple[Change, Any, Origin]] = []
        self._bytes = 0
        self._most, self._most_bytes = _FIRST, _MOST_BYTES
        #: By archive what is still to be sent of refused batches.
        self._left: defaultdict[int, deque[_Turn]] = defaultdict(deque)

    def put(self, change: Change, token: Any, origin: Origin) -> None:
        """Takes a change, and sends what was gathered where that is enough."""
        self._gathered.append((change, token, origin))
        self._bytes += len(change.text or b"")
        if len(self._gathered) >= self._most or self._bytes >= self._most_bytes:
            self.send()

    def send(self) -> None:
        """Makes the names of what was gathered durable, and then sends it."""
        if not self._gathered:
            return
        for origin in {id(origin): origin for _, _, origin in self._gathered}.values():
            origin.begin()
        sides = self._by_side()
        self._collection.names.keep()
        count, until = len(self._gathered), self._gathered[-1][0].time
        self._gathered.clear()
        self._bytes = 0
        takes_batches = self._collection.takes_batches
        if any(map(takes_batches, sides)):
            self.settle()  # what is left of the batches before comes first
            self._most, self._most_bytes = min(2 * self._most, _MOST_OF_BATCH), _MOST_BYTES_OF_BATCH
        else:
            self._most = min(2 * self._most, _MOST)
        for side, acts in sides.items():
            apart = self._apart(side, acts) if takes_batches(side) else len(acts)
            self._send(side, _Turn(acts[:apart], together=False))
            self._send(side, _Turn(acts[apart:], together=True))
        self._progress(count, until)

    def settle(self) -> None:
        """Waits for the replies to all that was sent, and sends what is left of refused batches."""
        self._collection.settle()
        while sides := [side for side, turns in self._left.items() if turns]:
            for side in sides:
                self._send(side, self._left[side].popleft())
            self._collection.settle()

    def _apart(self, side: int, acts: list[_Act]) -> int:
        """How many of the first changes may be in the archive already."""
        last = self._lasts[side]
        return 0 if last is None else next((at for at, act in enumerate(acts) if act.time > last), len(acts))

    def _by_side(self) -> dict[int, list[_Act]]:
        names, side_of = self._collection.names, self._collection.side_of
        sides: dict[int, list[_Act]] = {}
        for change, token, origin in self._gathered:
            doc = names.give(change.name)
            line = commands.delete(doc, change.time) if change.text is None else commands.arrive(doc, change.time, change.text)
            sides.setdefault(side_of(doc), []).append(_Act(change.time, line, token, origin))
        return sides

    def _send(self, side: int, turn: _Turn) -> None:
        lines = [act.line for act in turn.acts]
        if turn.together and len(lines) > 1:
            self._collection.send(side, commands.batch(lines), [(side, turn)], self._batch_answered)
        elif lines:
            self._collection.send(side, b"".join(lines), [(act.token, act.origin) for act in turn.acts], _answered)

    def _batch_answered(self, sent: tuple[int, _Turn], reply: Reply) -> None:
        side, turn = sent
        if isinstance(reply, Refused):
            self._left[side].extendleft(reversed(_left_of(turn, reply)))
            return
        for act in turn.acts:
            act.origin.answered(act.token, reply)


def _answered(sent: tuple[Any, Origin], reply: Reply) -> None:
    token, origin = sent
    origin.answered(token, reply)


def _left_of(turn: _Turn, refusal: Refused) -> list[_Turn]:
    """Tells of the item that is refused, and gives what is to be sent of the others, in their order."""
    acts, item = turn.acts, refusal.item
    if refusal.name in _NO_BATCH or (item and item > len(acts)):
        raise ProgramFailed(f"tt_archive answered `{refusal}` to a batch of {len(acts)} changes")
    if item is None:  # there is no room for all of them, and may be for some
        return [_Turn(acts, together=False)]
    refused = acts[item - 1]
    refused.origin.answered(refused.token, refusal.alone)
    before, behind = acts[: item - 1], acts[item:]
    turns = [_Turn(before, True), _Turn(behind[: turn.apart], False), _Turn(behind[turn.apart :], True, 2 * turn.apart)]
    return [each for each in turns if each.acts]
