"""The command that a `tt follow` runs at its leader: export.

It writes a line, the tables, and then what the program writes: the entries as packets. The line has how many entries the archive
has, the digest of its journal up to the end of the entry of that number, and how long the tables are. The folder is held from the
first byte to the last, so all of it is of one moment.
"""

from __future__ import annotations

import argparse
import subprocess
import sys
from functools import partial
from pathlib import Path
from typing import Sequence

from .collection import archives_in
from .errors import NotBuilt, ToolError
from .journal import digest, reach
from .ledger import FILE as IMPORTS
from .locks import Lock, Use, locked, patiently
from .names import FILE as NAMES
from .opening import claim_of
from .places import SHARDS
from .program import JOURNAL, USAGE, Shard, find_program
from .sides import End, failed_end

#: The tables that go with the entries.
TABLES = (NAMES, IMPORTS)
_OPTION = "--export"


def export(options: argparse.Namespace) -> None:
    folder, claim = options.archive, claim_of(options, Use.ASKS_ALONE)
    command = [*find_program(options.program), _OPTION, str(options.number)]
    check_alone(folder)
    if not (folder / JOURNAL).exists():
        raise ToolError(f"{folder / JOURNAL} is gone")
    with locked(folder, claim) as lock:
        tables, front, out = tables_of(folder), reach(folder, most=options.number), sys.stdout.buffer
        whole = digest(folder, 0, front.gate)
        out.write(b"%d %b %d %d\n" % (reach(folder, front).entries, whole.encode(), *map(len, tables)))
        out.writelines(tables)
        out.flush()
        patiently(partial(_run, command, folder, lock), claim)


def tables_of(folder: Path) -> list[bytes]:
    return [(folder / name).read_bytes() if (folder / name).exists() else b"" for name in TABLES]


def check_alone(folder: Path) -> None:
    """That there is an archive, and not one that is split."""
    archives_in(folder)
    if (folder / SHARDS).exists():
        raise ToolError(f"{folder} is split: `tt follow` is for one archive, and a split one has copies")


def _run(command: Sequence[str], folder: Path, lock: Lock) -> None:
    """Has the program write the packets."""
    program = subprocess.Popen(
        command, cwd=folder, stdin=subprocess.DEVNULL, stderr=subprocess.PIPE, pass_fds=(lock.descriptor,), start_new_session=True
    )
    lock.handed_to(program.pid)
    try:
        said = program.communicate()[1].decode("utf-8", "replace").strip()
    finally:
        program.terminate()  # a stop may end it anywhere, as it changes nothing
        program.wait()
    if program.returncode == USAGE:
        raise NotBuilt(_OPTION)
    if program.returncode:
        raise failed_end(End(Shard(folder), program.returncode, said))
