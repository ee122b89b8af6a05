"""The table of document numbers and names that stands beside an archive: `names.tsv`.

A line is a number, a tab and a name. Names are file names, titles and addresses, so a backslash,
a tab, a line feed and a carriage return are written `\\\\`, `\\t`, `\\n` and `\\r`, and another
control character, or a byte of a file name that isn't UTF-8, `\\xHH`. A line is durable before the
document's first version is sent, so a stop loses no name; a last line without its line feed was
never used, and is taken away before the next one is written.
"""

from __future__ import annotations

import os
import re
from pathlib import Path
from typing import Iterable

from .commands import NO_DOCUMENT
from .errors import ToolError
from .words import folded

FILE = "names.tsv"
#: So many names near a wrong one are told.
_MOST_NEAR = 3

_ESCAPES = {"\\": "\\\\", "\t": "\\t", "\n": "\\n", "\r": "\\r"}
_PLAIN = {written: char for char, written in _ESCAPES.items()}
#: A backslash, control characters of ASCII, and what stands for a byte that isn't UTF-8.
_TO_ESCAPE = re.compile("[\\\\\0-\x1f\x7f\udc80-\udcff]")
_ESCAPED = re.compile(r"\\(?:[\\tnr]|x[0-9a-f]{2})")


def escape(name: str) -> str:
    """The name on one line of a table."""
    return _TO_ESCAPE.sub(lambda found: _ESCAPES.get(found[0]) or f"\\x{ord(found[0]) & 0xFF:02x}", name)


def unescape(written: str) -> str:
    return _ESCAPED.sub(lambda found: _PLAIN.get(found[0]) or _char(int(found[0][2:], 16)), written)


def _char(byte: int) -> str:
    return chr(byte) if byte < 0x80 else chr(0xDC00 + byte)


class NameTable:
    """Numbers by name and names by number; numbers are given from 1 on."""

    def __init__(self, path: Path) -> None:
        self._path = path
        self._numbers: dict[str, int] = {}
        self._names: dict[int, str] = {}
        self._new: list[tuple[int, str]] = []
        self._next = 1
        #: The bytes of the table's whole lines.
        self._whole = 0
        if path.exists():
            self._read()

    def __len__(self) -> int:
        return len(self._numbers)

    def __contains__(self, name: str) -> bool:
        return name in self._numbers

    def items(self) -> Iterable[tuple[int, str]]:
        return self._names.items()

    def name(self, number: int) -> str:
        """The document's name, or `#NUMBER` where it has none."""
        return self._names.get(number, f"#{number}")

    def shown(self, number: int) -> str:
        """The document's name as `escape` writes it."""
        return escape(self.name(number))

    def number(self, name: str) -> int:
        """The number of a name, also as `escape` writes it, or of `#NUMBER`."""
        for spelled in (name, unescape(name)):
            if spelled in self._numbers:
                return self._numbers[spelled]
        if re.fullmatch(r"#\d{1,10}", name, re.ASCII):
            return int(name[1:])
        close = ", ".join(map(escape, self._near(name)))
        hint = f"; near it: {close}" if close else ", nor nearly so: `tt names PART` lists the names that have a part"
        raise ToolError(f"no document is named {name!r}{hint}")

    def _near(self, name: str) -> list[str]:
        """The names nearest to this one, without regard to case and marks."""
        import difflib  # loaded where it is needed

        spelled: dict[str, list[str]] = {}
        for each in self._numbers:
            spelled.setdefault(folded(each), []).append(each)
        close = difflib.get_close_matches(folded(name), spelled, n=_MOST_NEAR)
        return [each for key in close for each in spelled[key]][:_MOST_NEAR]

    def give(self, name: str) -> int:
        """The number of a name, a new one where it has none. `keep` makes new ones durable."""
        number = self._numbers.get(name)
        if number is None:
            number = self._next
            if number >= NO_DOCUMENT:
                raise ToolError("there are no more document numbers")
            self._note(number, name)
            self._new.append((number, name))
        return number

    def add(self, number: int, name: str) -> None:
        """Notes a name with a number that another table gave it."""
        self._note(number, name)
        self._new.append((number, name))

    def keep(self) -> None:
        """Appends the new names, and returns when they are durable."""
        if not self._new:
            return
        lines = "".join(f"{number}\t{escape(name)}\n" for number, name in self._new)
        with open(self._path, "ab") as file:
            file.truncate(self._whole)
            self._whole += file.write(lines.encode())
            file.flush()
            os.fsync(file.fileno())
        self._new.clear()

    def _note(self, number: int, name: str) -> None:
        self._numbers[name] = number
        self._names[number] = name
        self._next = max(self._next, number + 1)

    def _read(self) -> None:
        content = self._path.read_bytes()
        self._whole = content.rfind(b"\n") + 1
        for count, line in enumerate(content[: self._whole].decode("utf-8", "replace").split("\n")[:-1], 1):
            number, tab, name = line.partition("\t")
            if not tab or not re.fullmatch(r"\d{1,10}", number, re.ASCII):
                raise ToolError(f"{self._path}:{count}: no number and name")
            self._note(int(number), unescape(name))
