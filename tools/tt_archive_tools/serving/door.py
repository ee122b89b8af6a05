"""The door of a folder: a socket, through which other tt of the same user ask the programs of the process that has it.

Behind `.tt.socket` is a `tt serve`. A visitor says which archive it asks (`side 0`), and then sends questions as a script
has them. The answer is `reply N` and N bytes, replies as the program writes them, or `failed N` and what a keeper reads,
which ends the visit. Nothing that changes the archive is taken.
"""

from __future__ import annotations

import os
import socket
import threading
import time
from contextlib import contextmanager
from pathlib import Path
from typing import BinaryIO, Callable, Iterator

from .. import commands
from ..errors import ToolError

HELLO = b"side %d\n"
#: The commands that only ask. The deletion of no document is always refused, and tells the last time.
_QUESTIONS = (b"find", b"between", b"show", b"certificate", b"propose", b"verify")
_LAST_TIME = commands.delete(commands.NO_DOCUMENT, 0)
#: So many seconds visitors have to finish when the folder is given up.
GRACE = 5.0
_PAUSE = 0.2

#: Attends to a visitor until it leaves; a ToolError is told to it.
Attend = Callable[[socket.socket], None]


@contextmanager
def address(path: Path) -> Iterator[str]:
    """A short path of the same socket: the system takes 107 bytes at most."""
    folder = os.open(path.parent, os.O_PATH | os.O_DIRECTORY)
    try:
        yield f"/proc/self/fd/{folder}/{path.name}"
    finally:
        os.close(folder)


def is_open(path: Path) -> bool:
    """Whether somebody is behind a door."""
    if not path.exists():
        return False
    with socket.socket(socket.AF_UNIX) as visitor, address(path) as short:
        try:
            visitor.connect(short)
        except OSError:
            return False
    return True


class Door:
    """Open from `open` to `close`. Each visitor is attended to by a thread of its own."""

    def __init__(self, path: Path, attend: Attend) -> None:
        self._path = path
        self._attend = attend
        self._listener: socket.socket | None = None
        self._inside: set[socket.socket] = set()

    def open(self) -> None:
        """Whoever opens it has the folder's lock, so a socket that lies there is nobody's."""
        if self._listener:
            self._listener.close()
        self._path.unlink(missing_ok=True)
        listener = socket.socket(socket.AF_UNIX)
        with address(self._path) as path:
            listener.bind(path)
            os.chmod(path, 0o600)
        listener.listen()
        listener.settimeout(_PAUSE)
        self._listener = listener
        threading.Thread(target=self._let_in, args=(listener,), daemon=True).start()

    def close(self, grace: float = GRACE) -> None:
        """Lets nobody in, and returns when nobody is inside, or had so many seconds to finish."""
        if self._listener is None:
            return
        self._path.unlink(missing_ok=True)
        listener, self._listener = self._listener, None
        listener.close()
        until = time.monotonic() + grace
        while self._inside and time.monotonic() < until:
            time.sleep(0.02)
        for visitor in list(self._inside):
            try:
                visitor.shutdown(socket.SHUT_RDWR)
            except OSError:
                pass

    def _let_in(self, listener: socket.socket) -> None:
        while self._listener is listener:
            try:
                visitor, _ = listener.accept()
            except TimeoutError:
                continue
            except OSError:
                return
            visitor.settimeout(None)
            self._inside.add(visitor)
            threading.Thread(target=self._receive, args=(visitor,), daemon=True).start()

    def _receive(self, visitor: socket.socket) -> None:
        try:
            with visitor:
                try:
                    self._attend(visitor)
                except (ToolError, ValueError) as error:
                    say_to(visitor, b"failed", str(error).encode("utf-8", "surrogateescape"))
                except OSError:
                    raise
                except Exception as error:  # a fault of the tools themselves, which is told in their own output, too
                    say_to(visitor, b"failed", f"the tt that was asked failed: {error!r}".encode("utf-8", "replace"))
                    raise
        except OSError:
            pass  # it went away
        finally:
            self._inside.discard(visitor)


def answer(ask: Callable[[int, bytes], bytes], visitor: socket.socket) -> None:
    """Answers the questions of one archive, by `ask`, one after another."""
    with visitor.makefile("rb") as script:
        side = int(script.readline(commands.MOST_LINE).removeprefix(b"side "))
        for line in _questions(script):
            say_to(visitor, b"reply", ask(side, line))


def only_asks(line: bytes) -> bool:
    """Whether a line of a script changes nothing."""
    return line.split(b" ")[0].strip() in _QUESTIONS or line == _LAST_TIME


def say_to(visitor: socket.socket, kind: bytes, body: bytes) -> None:
    visitor.sendall(b"%b %d\n%b" % (kind, len(body), body))


def _questions(script: BinaryIO) -> Iterator[bytes]:
    while line := script.readline(commands.MOST_LINE + 2):
        if not line.endswith(b"\n"):
            raise ToolError("a question isn't whole")
        if not only_asks(line):
            raise ToolError("`tt serve` only carries out questions")
        yield line
