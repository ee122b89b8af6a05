"""One tt at a time works in a folder: its lock, waiting for it, and who has it.

The lock is the system's, on `.tt.lock`. It is held as long as one process has the file open that
this tt opened: tt itself, and each program that was handed the descriptor. So the folder of a tt
that was killed stays locked until its program has ended. What is written in the file names these
processes, and no lock rests on it.

A `tt serve` holds that lock for days. So a tt that changes the archive, or asks in a run of its own, first locks `.tt.turn`, and
holds it until it ends: a `tt serve` looks for this, gives the folder up, and takes it back
afterwards. A tt that only asks is let in by the door of a `tt serve` (`serving/door.py`).
"""

from __future__ import annotations

import fcntl
import os
import sys
import time
from contextlib import ExitStack, contextmanager
from dataclasses import dataclass
from enum import Enum
from pathlib import Path
from typing import Callable, Iterator

from .errors import InUse
from .names import escape, unescape
from .times import show_time
from .wording import one_line

FILE = ".tt.lock"
#: Locked by a tt that has the archive for itself, or waits to.
TURN = ".tt.turn"
#: Where a `tt serve` answers the questions of others, and where a `tt cluster` carries out all.
DOOR, CLUSTER = ".tt.socket", ".tt.cluster"
#: A lock that another has is tried again after so many seconds.
_PAUSE = 0.05


class Use(Enum):
    """What a tt wants a folder for."""

    ASKS = "to ask, be it through a `tt serve`"
    ASKS_ALONE = "to ask in a run of its own, to which a `tt serve` gives way"
    CHANGES = "to change it, to which a `tt serve` gives way"
    SERVES = "to serve it"


@dataclass(frozen=True)
class Claim:
    """Who asks for a folder, for how many seconds it waits while another has it, and what for."""

    command: str = "tt"
    wait: float = 10
    use: Use = Use.CHANGES


class Lock:
    """A lock that is held."""

    def __init__(self, descriptor: int, claim: Claim) -> None:
        self.descriptor = descriptor
        self._command = claim.command
        os.ftruncate(descriptor, 0)
        self._name(os.getpid(), self._command)

    def handed_to(self, process: int) -> None:
        """Names a program that was handed the descriptor, and so holds the lock, too."""
        self._name(process, f"the program of {self._command}")

    def _name(self, process: int, what: str) -> None:
        os.write(self.descriptor, f"{process}\t{show_time(int(time.time()))}\t{escape(what)}\n".encode())


@contextmanager
def locked(folder: Path, claim: Claim) -> Iterator[Lock]:
    """The folder's lock; what stands beside the archive is read and written under it."""
    with ExitStack() as files:
        if claim.use in (Use.CHANGES, Use.ASKS_ALONE):
            turn = files.enter_context(open(folder / TURN, "ab"))
            patiently(lambda: _take(turn.fileno(), folder), claim)
        file = files.enter_context(open(folder / FILE, "ab"))
        patiently(lambda: _take(file.fileno(), folder), claim)
        yield Lock(file.fileno(), claim)
        os.ftruncate(file.fileno(), 0)  # who stops without this is still named


def turn_is_taken(folder: Path) -> bool:
    """Whether a tt has the archive for itself, or waits to."""
    with open(folder / TURN, "ab") as turn:
        try:
            fcntl.flock(turn, fcntl.LOCK_SH | fcntl.LOCK_NB)
        except BlockingIOError:
            return True
    return False


def patiently(attempt: Callable[[], None], claim: Claim) -> None:
    """Tries until the folder isn't in use, for as long as the claim waits."""
    until = time.monotonic() + claim.wait
    told = False
    try:
        while True:
            try:
                return attempt()
            except InUse as error:
                if time.monotonic() >= until:
                    raise
                if sys.stderr.isatty() and not told:
                    sys.stderr.write(f"\r\x1b[Ktt: waits: {one_line(str(error))}")
                    sys.stderr.flush()
                    told = True
            time.sleep(_PAUSE)
    finally:
        if told:
            sys.stderr.write("\r\x1b[K")


def _take(descriptor: int, folder: Path) -> None:
    try:
        fcntl.flock(descriptor, fcntl.LOCK_EX | fcntl.LOCK_NB)
    except BlockingIOError:
        raise InUse(at_work(folder)) from None


def at_work(folder: Path) -> str:
    """That another tt is at work, and which: the first process of the lock's text that is still there."""
    return f"another tt is at work in {folder}{_holder(folder / FILE)}"


def _holder(path: Path) -> str:
    for line in path.read_bytes().decode("utf-8", "replace").splitlines():
        process, _, rest = line.partition("\t")
        since, _, what = rest.partition("\t")
        if what and process.isascii() and process.isdigit() and _is_there(int(process)):
            return f": {unescape(what)}, process {process}, since {since}"
    return ""


def _is_there(process: int) -> bool:
    try:
        os.kill(process, 0)
    except PermissionError:
        return True
    except (OSError, OverflowError):
        return False
    return True
