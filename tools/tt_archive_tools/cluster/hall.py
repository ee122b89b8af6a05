"""What visitors of a cluster's door are given: a desk's program, to ask or to feed, or an answer to a request.

A visitor's first line is `asks SHARD PLACE` or `feeds SHARD PLACE`, behind which it sends a script, or `do` and a list in
JSON, a request. The answer to a script is `reply N` and N bytes, what the program wrote to the commands that had come
until then; to a request the same with a JSON value. `failed N` tells why there is none, and ends the visit.
"""

from __future__ import annotations

import json
import socket
from concurrent.futures import ThreadPoolExecutor
from pathlib import Path
from threading import Event
from typing import Any, Callable, Sequence

from .. import commands
from ..copying import Gained, bring_up
from ..errors import ToolError
from ..locks import turn_is_taken
from ..names import FILE as NAMES
from ..places import Places, level_copies, note_level, table_of, write_table
from ..program import Shard
from ..serving.door import only_asks, say_to
from .desk import Desk, Engine

#: So much is received before a program is called, which whoever asks meanwhile waits for; a command may be longer.
_CALL = 1 << 16
#: No command is longer: a batch of the longest lines and texts.
_MOST_COMMAND = commands.MOST_BYTES_OF_BATCH + (commands.MOST_OF_BATCH + 1) * (commands.MOST_LINE + 2)


class Cutter:
    """Cuts what is received of a script into whole commands."""

    def __init__(self) -> None:
        self._received = bytearray()

    def __len__(self) -> int:
        return len(self._received)

    def add(self, data: bytes) -> None:
        self._received += data

    def line(self) -> bytes:
        """The first line, where it is whole."""
        end = self._received.find(b"\n") + 1
        line = bytes(self._received[:end])
        del self._received[:end]
        return line

    def commands(self) -> list[bytes]:
        """The commands that are whole, an arrival with its text, and a batch with its changes."""
        found = []
        at = 0
        while end := self._end(at):
            found.append(bytes(self._received[at:end]))
            at = end
        del self._received[:at]
        if not found and len(self._received) > _MOST_COMMAND:
            raise ToolError("a command is longer than any may be")
        return found

    def _end(self, at: int) -> int:
        """Where the command ends that begins at a place; 0 where it isn't whole."""
        end = self._end_alone(at)
        if self._received.startswith(b"batch ", at) and end:
            for _ in range(int(self._received[at + 6 : end])):
                end = end and self._end_alone(end)
        return end

    def _end_alone(self, at: int) -> int:
        """The same, where the line of a batch is a command by itself."""
        end = self._received.find(b"\n", at) + 1
        if end and self._received.startswith(b"arrive ", at):
            end += int(self._received[at:end].rpartition(b" ")[2]) + 1
        return end if end <= len(self._received) else 0


class Hall:
    """The desks of a collection, by archive and place, and who may come to them."""

    def __init__(self, folder: Path, table: Sequence[Sequence[Shard]], engine: Engine) -> None:
        """`table` has the places, each with its worker."""
        self.folder = folder
        self.desks = [[Desk(place, engine, self.is_old) for place in places] for places in table]
        self.stopped = Event()
        self._engine = engine

    def attend(self, visitor: socket.socket) -> None:
        received = Cutter()
        while not (hello := received.line()):
            if not (data := visitor.recv(_CALL)):
                return
            received.add(data)
        match hello.split(maxsplit=1):
            case [b"do", request]:
                say_to(visitor, b"reply", json.dumps(self._done(*json.loads(request))).encode())
            case [b"asks", place]:
                self._visit(visitor, received, self._desk(place), may_change=False)
            case [b"feeds", place]:
                self._check_turn()
                desk = self._desk(place)
                with desk.feeding:  # behind what a tt sent that was killed
                    desk.open(anew=not place.endswith(b" 0\n"))
                    self._visit(visitor, received, desk, may_change=True)
            case _:
                raise ToolError(f"`tt cluster` doesn't know what {hello!r} asks for")

    def is_old(self) -> bool:
        """Once documents have names, a journal that isn't there was lost."""
        return (self.folder / NAMES).stat().st_size > 0

    def _visit(self, visitor: socket.socket, received: Cutter, desk: Desk, may_change: bool) -> None:
        desk.open()
        while True:
            found = received.commands()
            if found:
                if not (may_change or all(map(only_asks, found))):
                    raise ToolError("only a tt that has the folder's lock may change its archives")
                say_to(visitor, b"reply", desk.ask(b"".join(found), len(found)))
            elif not _receive(visitor, received):
                return

    def _desk(self, place: bytes) -> Desk:
        shard, number = map(int, place.split())
        try:
            return self.desks[shard][number]
        except IndexError:
            raise ToolError(f"archive {shard} has no place {number} any more; ask again") from None

    def _check_turn(self) -> None:
        if not turn_is_taken(self.folder):
            raise ToolError("only a tt that has the folder's lock may change its archives")

    def _done(self, what: str, *words: Any) -> Any:
        match what, words:
            case "status", ():
                return self.each(_told)
            case "stop", ():
                ends = self.each(lambda desk: [str(desk.place), *desk.close()])
                self.stopped.set()
                return [end for places in ends for end in places]
        self._check_turn()
        match what, words:
            case "level", (int(shard), int(place)):
                return self._brought_up(shard, self.desks[shard][place])
            case "place", (int(shard), str(worker), str(path)):
                return self._place(self._archive(shard), shard, Shard(Path(path), worker=worker))
            case "drop", (int(shard), str(worker)):
                return self._drop(self._archive(shard), shard, worker)
        raise ToolError(f"`tt cluster` doesn't know how to do {what}")

    def each(self, what: Callable[[Desk], Any]) -> list[list[Any]]:
        """What is done at each desk, at all of them side by side: a machine that is away is waited for once."""
        with ThreadPoolExecutor(sum(map(len, self.desks))) as together:
            under_way = [[together.submit(what, desk) for desk in desks] for desks in self.desks]
            return [[done.result() for done in places] for places in under_way]

    def _archive(self, shard: int) -> list[Desk]:
        if not 0 <= shard < len(self.desks):
            raise ToolError(f"there is no shard {shard}; the first of {len(self.desks)} is 0")
        return self.desks[shard]

    def _brought_up(self, shard: int, copy: Desk) -> Gained:
        first = self.desks[shard][0]
        first.open()
        copy.open(anew=True)
        return bring_up(first, copy, first.ask, copy.ask)

    def _place(self, desks: list[Desk], shard: int, place: Shard) -> Gained:
        if not place.folder.is_absolute():
            raise ToolError(f"{place.folder} isn't a whole path from / on, as the worker {place.worker} needs it")
        if any(desk.place == place for desks in self.desks for desk in desks):
            raise ToolError(f"{place} has a place already")
        copy = Desk(place, self._engine, self.is_old)
        try:
            gained = self._brought_up(shard, copy)
        except BaseException:
            copy.close()
            raise
        table = table_of(self.folder)
        table[shard] = (*table[shard], place)
        self._note(table, level_copies(self.folder) | {(shard, place)})
        desks.append(copy)
        return gained

    def _drop(self, desks: list[Desk], shard: int, worker: str) -> str:
        number = next((number for number, desk in enumerate(desks) if desk.place.worker == worker), None)
        if number is None:
            raise ToolError(f"shard {shard} has no place on {worker}")
        table, level = table_of(self.folder), level_copies(self.folder)
        if len(desks) == 1:
            raise ToolError(f"shard {shard} has no other place than {desks[0].place}: `tt cluster place` makes a copy first")
        if number == 0 and (shard, table[shard][1]) not in level:
            raise ToolError(
                f"{desks[1].place}, which would be the first place then, may lack what was acknowledged; an import brings it up, or whoever "
                "gives up what only the first place has takes that out of shards.tsv by hand"
            )
        dropped, kept = table[shard][number], (*table[shard][:number], *table[shard][number + 1 :])
        table[shard] = kept
        self._note(table, level - {(shard, dropped), (shard, kept[0])})
        desk = desks.pop(number)
        desk.close()
        return str(desk.place)

    def _note(self, table: Sequence[Places], level: set[tuple[int, Shard]]) -> None:
        """A copy is noted as level only while it has a place: so it is struck here before it loses that."""
        note_level(self.folder, level & level_copies(self.folder))
        write_table(self.folder, table)
        note_level(self.folder, level)


def _receive(visitor: socket.socket, received: Cutter) -> bool:
    """Waits for more of a script, and takes what is there; False where nothing more comes."""
    most, flags = len(received) + _CALL, 0
    while len(received) < most:
        try:
            data = visitor.recv(_CALL, flags)
        except BlockingIOError:
            break
        if not data:
            return flags != 0  # what came before is carried out first
        received.add(data)
        flags = socket.MSG_DONTWAIT
    return True


def _told(desk: Desk) -> dict[str, Any]:
    """What `tt cluster status` tells of a place."""
    told: dict[str, Any] = {"place": str(desk.place.folder), "worker": desk.place.worker}
    try:
        desk.open()
        return {**told, **desk.where()._asdict()}
    except ToolError as error:
        return {**told, "why": str(error)}
