"""What was imported from where: `imports.tsv` beside an archive, so that an import goes on where the last one ended.

A line is `begin`, `with`, `end` or `refused`, the archive's last time then (`-` where it had none), how
many changes of the source lie up to there (`-` at a beginning), the source and, at a beginning, the
words that import it again. `begin` is written before the first version is sent. `with` begins another
source, whose changes are fed in one order of time with those of the line before. Else imports don't
overlap, since an archive has one writer. One that has no `end` was stopped: all that it fed lies up to
the last time of the next line that is no `with`, or of the archive. `refused` ends one of which nothing
was taken, as if it had never been.
"""

from __future__ import annotations

import os
from dataclasses import dataclass
from pathlib import Path

from .errors import ToolError
from .names import escape, unescape

FILE = "imports.tsv"
#: The kinds of lines.
BEGIN, WITH, END, REFUSED = "begin", "with", "end", "refused"


@dataclass(frozen=True)
class Done:
    """What was fed of a source: its changes from the first time of a range up to the last. `changes`
    says how many there were in all up to the end, where the last import came to it."""

    ranges: tuple[tuple[int, int], ...]
    changes: int | None
    #: The first time of the imports that were stopped since the last one that came to its end.
    stopped: int | None = None

    @property
    def end(self) -> int:
        return self.ranges[-1][1]

    def reached(self, time: int) -> bool:
        """The changes of this time were fed or refused. Of those at the end this is known where the
        last import came to its own."""
        return time < self.end or (time == self.end and self.changes is not None)

    def fed(self, time: int) -> bool:
        return any(start <= time <= end for start, end in self.ranges)


@dataclass(frozen=True)
class Line:
    """One line of the ledger."""

    kind: str
    last: int | None
    changes: int | None
    source: str
    #: At a beginning, how it is imported again: words of a shell behind `tt import`.
    words: str = ""

    @property
    def begins(self) -> bool:
        return self.kind in (BEGIN, WITH)


class Ledger:
    """The lines of `imports.tsv`, and appending one."""

    def __init__(self, path: Path) -> None:
        self._path = path
        self.lines = _read(path) if path.exists() else []

    def done(self, source: str, last: int | None) -> Done | None:
        """How far the source was imported, where the archive's last time is `last`."""
        ranges: list[tuple[int, int]] = []
        changes = kept = stopped = None
        for index, line in enumerate(self.lines):
            if line.source != source:
                continue
            if line.begins:
                behind = (later.last for later in self.lines[index + 1 :] if later.kind != WITH)
                start, end = line.last or 0, next(behind, last)
                kept, changes = changes, None
                stopped = start if stopped is None else stopped
            else:
                stopped = None
                start = ranges.pop()[0] if ranges else 0
                if line.kind == REFUSED:
                    changes = kept
                    continue
                end, changes = line.last, line.changes
            ranges.append((start, start if end is None else max(start, end)))
        return Done(tuple(ranges), changes, stopped) if ranges else None

    def sources(self) -> dict[str, str]:
        """The sources of which something was taken, or may have been, each with the words of its newest import."""
        found = {line.source: line.words for line in self.lines if line.begins}
        newest = {line.source: line.kind for line in self.lines}
        return {source: words for source, words in found.items() if newest[source] != REFUSED}

    def stopped(self) -> list[str]:
        """The sources whose newest import didn't come to its end."""
        newest = {line.source: line for line in self.lines}
        return [source for source, line in newest.items() if line.begins]

    def begin(self, source: str, last: int | None, words: str, beside: bool = False) -> None:
        """`beside` says that the changes are fed in one order of time with those of the source that began before."""
        self._append(Line(WITH if beside else BEGIN, last, None, source, words))

    def end(self, source: str, last: int | None, changes: int, taken: bool = True) -> None:
        """`taken` says whether the archive took anything of the source, now or before."""
        self._append(Line(END if taken else REFUSED, last, changes, source))

    def _append(self, line: Line) -> None:
        fields = (
            line.kind,
            "-" if line.last is None else str(line.last),
            "-" if line.changes is None else str(line.changes),
            escape(line.source),
            *([escape(line.words)] if line.begins else []),
        )
        with open(self._path, "ab") as file:
            file.truncate(_whole(self._path.read_bytes()))  # what stands behind whole lines was never used
            file.write("\t".join(fields).encode() + b"\n")
            file.flush()
            os.fsync(file.fileno())
        self.lines.append(line)


def _read(path: Path) -> list[Line]:
    content = path.read_bytes()
    lines = content[: _whole(content)].decode("utf-8", "replace").split("\n")[:-1]
    return [_line(text, f"{path}:{count}") for count, text in enumerate(lines, 1)]


def _whole(content: bytes) -> int:
    """How many bytes the whole lines have."""
    return content.rfind(b"\n") + 1


def _line(text: str, at: str) -> Line:
    match text.split("\t"):
        case ["begin" | "with" | "end" | "refused" as kind, last, changes, source, *words] if len(words) <= 1:
            try:
                return Line(kind, _number(last), _number(changes), *map(unescape, [source, *words]))
            except ValueError:
                pass
    raise ToolError(f"{at}: no line of a ledger of imports")


def _number(text: str) -> int | None:
    return None if text == "-" else int(text)
