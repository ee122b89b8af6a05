"""Splitting a collection by document into N archives, and asking them with GNU parallel.

Document d goes to shard d mod N and keeps its number, so the rows of all shards together are those
of the one archive.
"""

from __future__ import annotations

import os
import shlex
import shutil
import subprocess
from pathlib import Path
from typing import Any, Mapping, Sequence

from . import commands
from .collection import Collection
from .damage import explained
from .errors import ProgramFailed, ToolError
from .journal import entries
from .locks import Lock
from .names import FILE as NAMES
from .places import SHARDS
from .program import JOURNAL, Shard
from .replies import Ok, Reply, ReplyReader

_BATCH_BYTES = 1 << 20


def make_shards(into: Path, count: int) -> None:
    """Makes the folders of N archives, and the table that names them."""
    if count < 1:
        raise ToolError("there is at least 1 shard")
    if (into / SHARDS).exists() or (into / JOURNAL).exists() or (into / NAMES).exists():
        raise ToolError(f"{into} has an archive already")
    into.mkdir(parents=True, exist_ok=True)
    folders = [f"shard-{index}" for index in range(count)]
    for folder in folders:
        (into / folder).mkdir(exist_ok=True)
    (into / NAMES).touch()
    (into / SHARDS).write_text("".join(folder + "\n" for folder in folders))


def split(archive: Collection, into: Collection) -> int:
    """Feeds the arrivals and deletions of an archive to the shards, in their order. Plans aren't
    taken over: they are made anew. Answers how many entries the shards have."""
    for number, name in archive.names.items():
        into.names.add(number, name)
    into.names.keep()
    fed = 0
    lines: dict[int, list[bytes]] = {}
    size = 0
    for entry in entries(archive.folder, texts=True):
        if entry.arrives:
            line = commands.arrive(entry.doc, entry.time, entry.text)
        elif entry.deletes:
            line = commands.delete(entry.doc, entry.time)
        else:
            continue
        lines.setdefault(into.side_of(entry.doc), []).append(line)
        size += len(line)
        fed += 1
        if size >= _BATCH_BYTES:
            _send(into, lines)
            size = 0
    _send(into, lines)
    into.settle()
    return fed


def _send(into: Collection, lines: dict[int, list[bytes]]) -> None:
    """Sends changes, of which none is refused, as the archive has taken them before."""
    for side, script in lines.items():
        if not into.takes_batches(side):
            into.send(side, b"".join(script), script, _taken)
            continue
        for at in range(0, len(script), commands.MOST_OF_BATCH):
            batch = script[at : at + commands.MOST_OF_BATCH]
            into.send(side, commands.batch(batch), batch[:1], _taken)
    lines.clear()


def _taken(line: Any, reply: Reply) -> None:
    if not isinstance(reply, Ok):
        raise ProgramFailed(f"a shard answered {reply} to {line[:40]!r}, which the archive has")


def ask_with_parallel(
    shards: Sequence[Shard], command: Sequence[str], logins: str | None, question: bytes, lock: Lock
) -> list[Reply]:
    """The shards' replies to one question, each shard run by GNU parallel: where its line in the
    table says, or all on the machines of `logins`, which then need the folders at the same paths."""
    if shutil.which("parallel") is None:
        raise ToolError("there is no GNU parallel: install the package parallel")
    if any(shard.worker for shard in shards):
        raise ToolError("GNU parallel reaches no workers: leave out --parallel")
    run = "cd {1} && printf '%s\\n' {2} | " + shlex.join(command) + " || { echo tt_archive: {1} >&2; exit 1; }"
    words = ["parallel", "--will-cite", "--keep-order", *_machines(shards, logins), run]
    words += [":::", *_places(shards, logins), ":::", question.decode().rstrip("\n")]
    sh = {"PARALLEL_SHELL": "/bin/sh"}  # not the shell of whoever is logged in there, who may have none
    done = subprocess.run(
        words, stdin=subprocess.DEVNULL, capture_output=True, env={**os.environ, **sh}, pass_fds=(lock.descriptor,)
    )
    if done.returncode != 0:
        here = {str(shard.folder.resolve()): shard for shard in shards if not (shard.login or logins)}
        raise ProgramFailed(_fault(done.stderr.decode("utf-8", "replace").strip(), done.returncode, here))
    reader = ReplyReader()
    replies = list(reader.replies(done.stdout))
    reader.end()
    if len(replies) != len(shards):
        raise ProgramFailed(f"{len(shards)} shards gave {len(replies)} replies")
    return replies


def _fault(said: str, status: int, here: Mapping[str, Shard]) -> str:
    """What the first job that failed said, behind where it ran."""
    own = [line for line in said.splitlines() if line.startswith("tt_archive: ")]
    if len(own) < 2:
        return "; ".join(said.splitlines()) or f"parallel ended with status {status}"
    place = own[1].removeprefix("tt_archive: ")
    return f"{place}: {explained(own[0], here.get(place, Shard(Path(place), 'elsewhere')))}"


def _machines(shards: Sequence[Shard], logins: str | None) -> list[str]:
    """Parallel's words for where to run: each login is a group of its own, `g0` and so on."""
    if logins:
        return ["--sshlogin", logins]
    words = []
    for index, login in enumerate(_logins(shards)):
        words += ["--sshlogin", f"@g{index}/{login or ':'}"]
    return ["--hostgroups", *words]


def _places(shards: Sequence[Shard], logins: str | None) -> list[str]:
    """The folders, each with the group that may run it."""
    places = [str(shard.folder if shard.login else shard.folder.resolve()) for shard in shards]
    if logins:
        return places
    if any("@" in place for place in places):
        raise ToolError("GNU parallel takes no folder with an @ in its name")
    groups = _logins(shards)
    return [f"{place}@g{groups.index(shard.login)}" for place, shard in zip(places, shards)]


def _logins(shards: Sequence[Shard]) -> list[str]:
    return sorted({shard.login for shard in shards})
