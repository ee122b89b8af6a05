"""The desk of a place: whoever asks it has turns, and what it lost is opened anew."""

from __future__ import annotations

import threading
from typing import Any, Callable, Iterator, Protocol

from ..copying import Extent, Piece
from ..errors import ProgramFailed, ToolError
from ..program import Shard
from .shard_program import Where


class Silent(ProgramFailed):
    """A worker that doesn't answer, and may do so later."""


class Engine(Protocol):
    """Runs `ShardProgram` on workers."""

    def open(self, place: Shard, is_old: bool) -> Any:
        """A `ShardProgram` for the place's folder. A ToolError tells why there is none."""

    def call(self, held: Any, name: str, *words: object) -> Any:
        """What a method of it answers. A ToolError tells why there is no answer, `Silent` that there may be one later."""


class Desk:
    """One place. Each call waits for the one before."""

    def __init__(self, place: Shard, engine: Engine, is_old: Callable[[], bool]) -> None:
        self.place = place
        #: Why it can't be asked now; empty where it can.
        self.why = "it isn't open yet"
        #: Held by the one who feeds it, until all that was sent to it is answered.
        self.feeding = threading.Lock()
        self._engine = engine
        self._is_old = is_old
        self._turn = threading.Lock()
        self._held: Any = None
        self._number = 0

    def open(self, anew: bool = False) -> None:
        """Opens it where it isn't open, or was lost. Only where it is to be brought up afterwards, `anew`, may its folder
        be without an archive that has been there."""
        with self._turn:
            if self._held is not None and not self.why:
                return
            try:
                if not self._is_there_again():
                    self._held = self._engine.open(self.place, self._is_old() and not anew)
                    self._number = 0
            except ToolError as error:
                self.why = str(error)
                raise
            self.why = ""

    def _is_there_again(self) -> bool:
        """What was lost may have been silent alone. It then has carried out what was under way, or never got it."""
        if self._held is None:
            return False
        try:
            self._number = int(self._engine.call(self._held, "calls"))
        except Silent:
            raise
        except ToolError:
            self._held = None
        return self._held is not None

    def ask(self, script: bytes, count: int) -> bytes:
        with self._turn:
            self._number += 1
            return bytes(self._call("ask", self._number, script, count))

    def where(self) -> Where:
        with self._turn:
            return Where(*self._call("where"))

    def extent(self) -> Extent:
        with self._turn:
            return Extent(*self._call("extent"))

    def digest(self, size: int) -> str:
        with self._turn:
            return str(self._call("digest", size))

    def pieces(self, gate: int) -> Iterator[Piece]:
        while True:
            with self._turn:
                piece = self._call("piece", gate)
            if piece is None:
                return
            yield Piece(*piece)
            gate = piece[2]

    def close(self) -> tuple[int, str]:
        """Ends the program in order. Nobody can ask it afterwards."""
        with self._turn:
            try:
                status, said = self._call("close")
            except ToolError as error:
                return 1, str(error)
            self._held, self.why = None, "it was closed"
            return status, said

    def _call(self, name: str, *words: object) -> Any:
        if self.why:
            raise ProgramFailed(self.why)
        try:
            return self._engine.call(self._held, name, *words)
        except ToolError as error:
            self.why = str(error)  # nothing is known of what was under way
            raise
