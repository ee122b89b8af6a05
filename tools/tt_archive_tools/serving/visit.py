"""The side of a tt that is let in: a program of a `tt serve` or a `tt cluster`, reached through the door of its folder.

A visit stands in a collection where otherwise a program of its own does, and behaves as one.
"""

from __future__ import annotations

import select
import socket
from pathlib import Path
from typing import Iterator

from ..program import Shard
from ..replies import Reply, ReplyReader
from .door import address

_PIECE = 1 << 16
_PATIENCE = 10
_GONE = "the tt that was asked has ended, or gave the archive to another one; ask again"


class Visit:
    """One archive's program, behind the door. A ConnectionError says that nobody is there."""

    def __init__(self, door: Path, hello: bytes, shard: Shard) -> None:
        self.shard = shard
        self.ended = False
        self._reader = ReplyReader()
        self._rest = b""
        self._said = ""
        self._socket = socket.socket(socket.AF_UNIX)
        try:
            with address(door) as path:
                self._socket.connect(path)
            self._socket.sendall(hello)
        except OSError as error:
            self._socket.close()
            raise ConnectionError(error.strerror) from None
        self._socket.setblocking(False)
        self._room = select.poll()
        self._room.register(self._socket, select.POLLOUT)

    def fileno(self) -> int:
        return self._socket.fileno()

    def write(self, script: memoryview) -> memoryview:
        """Sends what there is room for now, and gives the rest."""
        try:
            return script[self._socket.send(script) :]
        except BlockingIOError:
            return script
        except OSError:
            return script[:0]  # the end of the replies says why

    def wait_for_room(self) -> None:
        self._room.poll(_PATIENCE)

    def replies(self) -> Iterator[Reply]:
        """The replies that are there; whether they were the last, `ended` tells."""
        try:
            piece = self._socket.recv(_PIECE)
        except BlockingIOError:
            return
        except ConnectionError:
            piece = b""
        if not piece:
            self.ended = True
            self._said = _GONE
        self._rest += piece
        while end := self._rest.find(b"\n") + 1:
            kind, size = self._rest[: end - 1].split(b" ")
            until = end + int(size)
            if len(self._rest) < until:
                break
            body, self._rest = self._rest[end:until], self._rest[until:]
            if kind == b"failed":
                self.ended = True
                self._said = body.decode("utf-8", "replace")
                return
            yield from self._reader.replies(body)

    def end_input(self) -> None:
        if not self.ended:
            try:
                self._socket.shutdown(socket.SHUT_WR)
            except OSError:
                pass

    def wait(self) -> tuple[int, str]:
        """Status 1 and what was said where a question failed. The program itself works on."""
        self._socket.close()
        return (1, self._said) if self._said else (0, "")
