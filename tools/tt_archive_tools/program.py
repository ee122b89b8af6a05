"""One running tt_archive, fed and read through pipes."""

from __future__ import annotations

import os
import select
import shlex
import shutil
import subprocess
from dataclasses import dataclass
from pathlib import Path
from typing import Iterator, Sequence

from .errors import ToolError
from .locks import Lock
from .replies import Reply, ReplyReader

VARIABLE = "TT_ARCHIVE"
#: The files of an archive.
JOURNAL, PAGES = "archive.journal", "archive.pages"
#: The status of a program that doesn't know the words it was given, and of one that found another at work in its folder. Neither
#: did anything.
USAGE, AT_WORK = 2, 11
#: Where `tools/install` puts the program, and where the repository builds it.
_INSTALLED = Path(__file__).resolve().parents[1] / "tt_archive"
_BUILT = Path(__file__).resolve().parents[2] / "crates" / "tt_archive" / "out" / "tt_archive"

#: So much of what is printed is read at once, which is what a pipe holds.
_PIECE = 1 << 16
#: In so many milliseconds a program prints less than that of replies to changes.
_PATIENCE = 10


def find_program(named: str | None) -> list[str]:
    """The words that start the program: those named, those of TT_ARCHIVE, `tt_archive` on the
    path, the one installed with the tools, or the one built in this repository."""
    words = shlex.split(named or os.environ.get(VARIABLE, ""))
    if words:
        if "/" in words[0]:
            words[0] = os.path.abspath(words[0])
        if shutil.which(words[0]) is None:
            raise ToolError(f"there is no program {words[0]}")
        return words
    if found := shutil.which("tt_archive"):
        return [os.path.abspath(found)]
    for place in (_INSTALLED, _BUILT):
        if os.access(place, os.X_OK):
            return [str(place)]
    raise ToolError(
        f"there is no tt_archive: build it with bin/tt_archive, or name it with --program or {VARIABLE}"
    )


@dataclass(frozen=True)
class Shard:
    """Where an archive is, or a copy of one: a folder, here, on the machine of a login, or on that of a worker."""

    folder: Path
    login: str = ""
    worker: str = ""

    @property
    def is_here(self) -> bool:
        """Whether its files can be read from here."""
        return not (self.login or self.worker)

    def __str__(self) -> str:
        return str(self.folder) if self.is_here else f"{self.login or self.worker}:{self.folder}"


class Program:
    """A tt_archive in its folder, run through ssh where that is on another machine. Writing to it and
    reading from it don't wait, so that it works while the tool does. It holds the lock until it ends."""

    def __init__(self, command: Sequence[str], shard: Shard, lock: Lock | None = None, is_old: bool = False) -> None:
        """Of an archive that `is_old` a journal has to be there, so that no new one is made in its place."""
        self.shard = shard
        self.ended = False
        self._reader = ReplyReader()
        self._end: tuple[int, str] | None = None
        if shard.login:
            run = f"exec {shlex.join(command)}"
            if is_old:
                run = f"if [ -s {JOURNAL} ]; then {run}; else echo '{JOURNAL} is gone' >&2; exit 1; fi"
            command = ["ssh", shard.login, f"cd {shlex.quote(str(shard.folder))} && {run}"]
        try:
            process = subprocess.Popen(
                command,
                bufsize=0,
                cwd=None if shard.login else shard.folder,
                stdin=subprocess.PIPE,
                stdout=subprocess.PIPE,
                stderr=subprocess.PIPE,
                pass_fds=(lock.descriptor,) if lock else (),
                start_new_session=True,  # Ctrl-C stops the tool, which ends the program in order
            )
        except OSError as error:
            raise ToolError(f"{command[0]} can't be started in {shard}: {error.strerror}") from None
        if lock:
            lock.handed_to(process.pid)
        assert process.stdin and process.stdout and process.stderr
        self._process = process
        self._input, self._output, self._errors = process.stdin, process.stdout, process.stderr
        os.set_blocking(self._input.fileno(), False)
        os.set_blocking(self._output.fileno(), False)
        self._room = select.poll()
        self._room.register(self._input, select.POLLOUT)

    @property
    def process(self) -> int:
        """The number of its process."""
        return self._process.pid

    def fileno(self) -> int:
        """Where replies can be waited for."""
        return self._output.fileno()

    def write(self, script: memoryview) -> memoryview:
        """Writes commands as far as there is room for them now, and gives the rest."""
        try:
            return script[self._input.write(script) or 0 :]
        except (BrokenPipeError, ValueError):
            return script[:0]  # the end of the replies says why

    def wait_for_room(self) -> None:
        """Waits until commands can be written, but not so long that replies fill their pipe."""
        self._room.poll(_PATIENCE)

    def replies(self) -> Iterator[Reply]:
        """The replies that are there; whether they were the last, `ended` tells."""
        yield from self._reader.replies(self.printed())
        if self.ended:
            self._reader.end()

    def printed(self) -> bytes:
        """What was printed and not yet read, as it is."""
        piece = self._output.read(_PIECE)
        self.ended = piece == b""
        return piece or b""

    def end_input(self) -> None:
        self._input.close()

    def wait(self) -> tuple[int, str]:
        """The status and what was said with it, when the program has ended."""
        if self._end is None:
            os.set_blocking(self._output.fileno(), True)
            while self._output.read(_PIECE):
                pass
            said = self._errors.read().decode("utf-8", "replace").strip()
            self._end = self._process.wait(), said
            self._output.close()
            self._errors.close()
        return self._end
