"""Where the archives of a collection are: `shards.tsv`, and `level.tsv`, which tells what copies have.

A line of `shards.tsv` is one archive: a folder and, behind a tab, who reaches it: nothing for this machine, a login
for `ssh`, or `dask:` and the name of a worker. Further pairs are copies. The first place is the one by which the
copies are measured.

`level.tsv` lists the copies that have all that was acknowledged: archive, folder, who reaches it. It is emptied, durably,
before anything is changed, and written when all was answered. So a copy that isn't listed, because a tt was killed, a
machine was lost, or a keeper has just added it, may lack something.
"""

from __future__ import annotations

import os
from pathlib import Path
from typing import Iterable, Sequence

from .errors import ToolError
from .program import Shard

SHARDS, LEVEL = "shards.tsv", "level.tsv"
_WORKER = "dask:"

#: The places of one archive, the first one and its copies.
Places = tuple[Shard, ...]


def table_of(folder: Path) -> list[Places]:
    """The places of each archive of a collection."""
    path = folder / SHARDS
    if not path.exists():
        return [(Shard(folder),)]
    table = [_places(line, folder, f"{path}:{count}") for count, line in enumerate(path.read_text().splitlines(), 1)]
    if not table:
        raise ToolError(f"{path}: there is no shard")
    for places in table:
        if len(places) == 1 and places[0].is_here and not places[0].folder.is_dir():
            raise ToolError(f"{path}: there is no folder {places[0].folder}")
    return table


def shards_of(folder: Path) -> list[Shard]:
    """The first place of each archive of a collection."""
    return [places[0] for places in table_of(folder)]


def write_table(folder: Path, table: Sequence[Places]) -> None:
    replace_file(folder / SHARDS, _lines("\t".join(_written(places, folder)) for places in table))


def level_copies(folder: Path) -> set[tuple[int, Shard]]:
    """The copies that have all that was acknowledged, with the number of their archive."""
    path = folder / LEVEL
    found = set()
    for line in path.read_text().splitlines() if path.exists() else ():
        number, _, place = line.partition("\t")
        if number.isdecimal():
            found.update((int(number), shard) for shard in _places(place, folder, str(path)))
    return found


def note_level(folder: Path, copies: Iterable[tuple[int, Shard]]) -> None:
    """Returns when it is durable that these copies, and no others, have all that was acknowledged."""
    replace_file(folder / LEVEL, _lines("\t".join([str(number), *_written([copy], folder)]) for number, copy in copies))


def _places(line: str, folder: Path, at: str) -> Places:
    fields = line.split("\t")
    pairs = zip(fields[::2], [*fields[1::2], ""])
    return tuple(_place(place, who, folder, at) for place, who in pairs)


def _place(place: str, who: str, folder: Path, at: str) -> Shard:
    if not place:
        raise ToolError(f"{at}: a place has no folder")
    if who.startswith(_WORKER):
        if not place.startswith("/"):
            raise ToolError(f"{at}: the folder of a worker is a whole path from / on, and {place} is none")
        return Shard(Path(place), worker=who.removeprefix(_WORKER))
    return Shard(Path(place), who) if who else Shard(folder / place)


def _written(places: Iterable[Shard], folder: Path) -> list[str]:
    """The fields of places; a folder below the collection's own stays so when that is moved."""
    fields: list[str] = []
    for place in places:
        is_below = place.is_here and place.folder.is_relative_to(folder)
        path = place.folder.relative_to(folder) if is_below else place.folder
        fields += [str(path), f"{_WORKER}{place.worker}" if place.worker else place.login]
    return fields if fields[-1] else fields[:-1]


def _lines(lines: Iterable[str]) -> bytes:
    return "".join(f"{line}\n" for line in lines).encode()


def replace_file(path: Path, content: bytes) -> None:
    """Puts bytes in the place of a file, all or none of them, and returns when that is durable."""
    new = path.with_name(f".{path.name}.new")
    with open(new, "wb") as file:
        file.write(content)
        file.flush()
        os.fsync(file.fileno())
    os.replace(new, path)
    descriptor = os.open(path.parent, os.O_RDONLY)
    try:
        os.fsync(descriptor)
    finally:
        os.close(descriptor)
