"""A folder: snapshots in folders with dates, or files with the times at which they changed.

Where the folders directly under the tree are named by dates (`2007`, `2007-07`, `2007-07-23`,
`20070723`, `2007-07-23T12:30:00Z`, `20070723123000`), each is the whole collection as of its date: a
file that the next snapshot doesn't have ends there. Where none is, each file is one version, at the
time of its last change; what is no longer there isn't known to have ended. A tree with folders of
both kinds is neither: what it would be taken for can't be undone, so it is refused.
"""

from __future__ import annotations

import os
import re
from dataclasses import dataclass
from pathlib import Path
from typing import Iterator

from ..changes import Change, Notes
from ..errors import InputError
from ..texts import Reading
from ..times import parse_stamp, show_time
from ..wording import counted

#: A year, or a month of one, stands for its first day.
_YEAR = re.compile(r"\d{4}\Z", re.ASCII)
_MONTH = re.compile(r"\d{4}-\d{2}\Z", re.ASCII)
#: So many names are told.
_MOST_NAMES = 10
#: Files are read up to here. Four times the longest text leaves room for markup.
_MOST_BYTES = 1 << 24


@dataclass(frozen=True)
class FolderSource:
    """A tree of files."""

    tree: Path
    prefix: str = ""
    #: Each file is taken at the time of its last change, whatever the folders' names are.
    by_time: bool = False

    @property
    def identity(self) -> str:
        kind = "folder by time" if self.by_time else "folder"
        return f"{kind} {self.tree.resolve()} {self.prefix}".rstrip()

    def changes(self, reading: Reading, notes: Notes) -> Iterator[Change]:
        snapshots = [] if self.by_time else self._snapshots()
        if snapshots:
            first, last = show_time(snapshots[0][0]), show_time(snapshots[-1][0])
            notes.tell(f"{self.tree}: {counted(len(snapshots), 'snapshot')}, {first} to {last}")
            return self._of_snapshots(snapshots, reading, notes)
        return self._of_files(reading, notes)

    def _snapshots(self) -> list[tuple[int, Path]]:
        """The folders with dates, in order; none where no folder is named by a date."""
        try:
            folders = [entry for entry in self.tree.iterdir() if entry.is_dir() and not _hidden(entry)]
        except OSError as error:
            raise InputError(str(self.tree), error.strerror or str(error)) from None
        dated = [(_date(folder.name), folder) for folder in folders]
        others = sorted(folder.name for time, folder in dated if time is None)
        if others and len(others) < len(folders):
            names = ", ".join([*others[:_MOST_NAMES], *(["..."] if len(others) > _MOST_NAMES else [])])
            raise InputError(str(self.tree), (
                f"these of its folders aren't named by dates, and the others are: {names}; name all by dates, or move "
                "these elsewhere, or take each file by its last change with --by-time"
            ))  # fmt: skip
        return sorted((time, folder) for time, folder in dated if time is not None)

    def _of_snapshots(
        self, snapshots: list[tuple[int, Path]], reading: Reading, notes: Notes
    ) -> Iterator[Change]:
        for file in self.tree.iterdir():
            if file.is_file():
                notes.add("file beside the folders with dates, left out", str(file))
        before: set[str] = set()
        for time, folder in snapshots:
            files = {_name(file, folder): file for file in _files(folder)}
            for name in sorted(before - files.keys()):
                yield Change(time, self.prefix + name, None, str(folder / name))
            for name, file in sorted(files.items()):
                yield Change(time, self.prefix + name, _text(file, reading, notes), str(file))
            before = set(files)

    def _of_files(self, reading: Reading, notes: Notes) -> Iterator[Change]:
        files = sorted((int(file.stat().st_mtime), _name(file, self.tree), file) for file in _files(self.tree))
        notes.tell(f"{self.tree}: {counted(len(files), 'file')}, each at the time of its last change")
        for time, name, file in files:
            yield Change(time, self.prefix + name, _text(file, reading, notes), str(file))


def _date(name: str) -> int | None:
    """The time that a folder's name tells; None where it is no date."""
    if _YEAR.match(name):
        name += "-01"
    return parse_stamp(f"{name}-01" if _MONTH.match(name) else name)


def _files(folder: Path) -> Iterator[Path]:
    """The files below a folder; hidden ones and symbolic links are no part of it."""
    for parent, folders, files in os.walk(folder):
        folders[:] = sorted(name for name in folders if not name.startswith("."))
        for name in sorted(files):
            path = Path(parent, name)
            if not _hidden(path) and path.is_file() and not path.is_symlink():
                yield path


def _hidden(path: Path) -> bool:
    return path.name.startswith(".")


def _name(file: Path, folder: Path) -> str:
    return file.relative_to(folder).as_posix()


def _text(file: Path, reading: Reading, notes: Notes) -> bytes | None:
    try:
        with open(file, "rb") as stream:
            data = stream.read(_MOST_BYTES)
    except OSError as error:
        raise InputError(str(file), error.strerror or str(error)) from None
    return reading.of_file(data, file.name, str(file), notes)
