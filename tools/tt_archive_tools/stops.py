"""A stop from the keyboard (INT), by a service or `timeout` (TERM), or by a terminal that is closed (HUP)."""

from __future__ import annotations

import signal
from contextlib import contextmanager
from types import FrameType
from typing import Iterator

_STOPS = (signal.SIGINT, signal.SIGTERM, signal.SIGHUP)


class Stopped(KeyboardInterrupt):
    """Ends the command in order: the programs' input ends, and they are waited for."""

    def __init__(self, number: int) -> None:
        super().__init__()
        #: What a shell says of a command that the signal ended.
        self.status = 128 + number


@contextmanager
def stops_in_order() -> Iterator[None]:
    """Each of the signals raises `Stopped`, but for those that whoever started tt had ignored (nohup)."""
    before = {number: signal.getsignal(number) for number in _STOPS}
    try:
        for number, handler in before.items():
            if handler is not signal.SIG_IGN:
                signal.signal(number, _stop)
        yield
    finally:
        for number, handler in before.items():
            signal.signal(number, handler)


def _stop(number: int, frame: FrameType | None) -> None:
    raise Stopped(number)
