"""On a worker: an archive's folder, its lock, and the program that runs in it."""

from __future__ import annotations

import os
import select
import socket
from contextlib import ExitStack
from pathlib import Path
from typing import NamedTuple, Sequence

from .. import commands
from ..copying import Extent, JournalFile, Piece
from ..errors import InUse, ProgramFailed, ToolError
from ..locks import Claim, Use, locked
from ..program import AT_WORK, JOURNAL, Program, Shard
from ..replies import Gone, Refused, ReplyReader
from ..sides import FIRST_QUESTION, LAST_TIME, End, explained_end

#: A program whose tt or worker was killed works on until it finds that its input has ended; so long it is waited for.
_WAIT = 60.0


class Where(NamedTuple):
    """Where a program is and what its journal has."""

    machine: str
    #: The processes of the worker and of the program.
    worker_process: int
    process: int
    entries: int
    last: int | None


class ShardProgram:
    """Holds a folder's lock and its program until it is closed, or forgotten. Its calls come one at a time."""

    def __init__(self, folder: str, command: Sequence[str], is_old: bool, wait: float = _WAIT) -> None:
        """Returns when the program has loaded the archive. Of one that `is_old` a journal has to be there."""
        place = Shard(Path(folder))
        if is_old and not (place.folder / JOURNAL).exists():
            raise ToolError(f"{JOURNAL} is gone")
        place.folder.mkdir(parents=True, exist_ok=True)
        self._place = place
        self._journal = JournalFile(place)
        self._extent: Extent | None = None
        self._number = 0
        self._why = ""
        self._held = ExitStack()
        try:
            lock = self._held.enter_context(locked(place.folder, Claim("`tt cluster`", wait, Use.ASKS)))
            self._program = Program(command, place, lock)
            self._printing = select.poll()
            self._printing.register(self._program.fileno(), select.POLLIN)
            self._reader = ReplyReader()
            self._exchange(FIRST_QUESTION, 1)
        except BaseException:
            self._held.close()
            raise

    def ask(self, number: int, script: bytes, count: int) -> bytes:
        """What the program prints for so many commands, which have one reply each. `number` is one more than in the call
        before: so a call that was overtaken, or came twice, reaches no program."""
        if number != self._number + 1:
            raise ProgramFailed(f"call {number} came behind call {self._number}, and wasn't carried out")
        self._number = number
        return self._exchange(script, count)

    def calls(self) -> int:
        """The number of the last call, for whoever doesn't know whether that came."""
        if self._why:
            raise ProgramFailed(self._why)
        return self._number

    def where(self) -> Where:
        reply = next(iter(ReplyReader().replies(self._exchange(LAST_TIME, 1))))
        last = int(reply.detail) if isinstance(reply, Refused) and reply.name == "TimeBack" else None
        return Where(socket.gethostname(), os.getpid(), self._program.process, self.extent().entries, last)

    def extent(self) -> Extent:
        self._extent = self._journal.extent(self._extent)
        return self._extent

    def digest(self, size: int) -> str:
        return self._journal.digest(size)

    def piece(self, gate: int) -> Piece | None:
        """The next commands of the journal; None at its end."""
        return next(self._journal.pieces(gate), None)

    def close(self) -> tuple[int, str]:
        """Ends the program in order, and gives its status and what it said."""
        self._why = self._why or "it was closed"
        self._program.end_input()
        end = self._program.wait()
        self._held.close()
        return end

    def __del__(self) -> None:
        """A worker forgets it where whoever asked is gone. The program ends when it sees the end of its input, and with
        it the lock; without this it would be kept for as long as the worker."""
        if hasattr(self, "_program"):
            self._program.end_input()

    def _exchange(self, script: bytes, count: int) -> bytes:
        if self._why:
            raise ProgramFailed(self._why)
        rest = memoryview(script)
        pieces: list[bytes] = []
        # A program that doesn't know batches has one reply more to the question for them, which ends with that to a text.
        is_more = script == commands.asks_for_batches()
        while count > 0 or is_more:
            rest = self._program.write(rest)
            if self._printing.poll(0 if rest else None):
                pieces.append(self._program.printed())
                for reply in self._reader.replies(pieces[-1]):
                    count -= 1
                    is_more = is_more and reply != Gone()
                if self._program.ended:
                    self._ended()
            elif rest:
                self._program.wait_for_room()
        return b"".join(pieces)

    def _ended(self) -> None:
        """The program has ended by itself. What it said stands for all later calls, too."""
        status, said = self.close()
        if status == AT_WORK:
            raise InUse("another program is at work there, which no tt started")
        self._why = explained_end(End(self._place, status, said))
        raise ProgramFailed(self._why)
