"""The process that has a cluster's desks, from `tt cluster start` until it is stopped."""

from __future__ import annotations

import argparse
import ipaddress
import os
import subprocess
import sys
from importlib.util import find_spec
from pathlib import Path
from typing import NoReturn, Sequence
from urllib.parse import urlsplit

from ..collection import archives_in
from ..errors import ToolError
from ..locks import CLUSTER, locked
from ..opening import claim_of
from ..places import SHARDS, table_of
from ..program import Shard, find_program
from ..serving.door import Door, is_open
from ..stops import Stopped
from ..wording import counted, say
from .desk import Desk
from .hall import Hall

#: Debian's Python, to which its package of Dask belongs.
_SYSTEM = "/usr/bin/python3"
_ASKS_FOR_DASK = "import sys; from importlib.util import find_spec; sys.exit(find_spec('distributed') is None)"
_TT = Path(__file__).resolve().parents[2] / "tt"


def start(options: argparse.Namespace) -> None:
    check_reach(options.scheduler, options.tls, options.local)
    command = find_program(options.program)
    places = placed(options.archive, options.local)
    if not find_spec("distributed"):
        _again()
    from .dask_engine import DaskEngine  # loaded where a cluster is started

    with locked(options.archive, claim_of(options)):  # a `tt serve` gives way, and finds the cluster afterwards
        if is_open(options.archive / CLUSTER):
            raise ToolError(f"a cluster is started in {options.archive} already; `tt cluster stop` ends it")
        if not (options.scheduler or options.tls):
            say("whoever is on this machine can run programs as its user through a cluster without certificates: `--tls FOLDER` keeps others out")
        engine = DaskEngine(command, options.scheduler, options.local, options.tls)
        hall = Hall(options.archive, places, engine)
        door = Door(options.archive / CLUSTER, hall.attend)
        try:
            _open(hall)
            door.open()
        except BaseException:
            engine.close()
            raise
    try:
        print(_opened(hall, engine.workers()), flush=True)
        hall.stopped.wait()
    except Stopped:
        pass  # this is how it ends, too
    finally:
        door.close()
        hall.each(Desk.close)
        engine.close()


def check_reach(scheduler: str | None, tls: Path | None, local: int) -> None:
    """Whoever reaches a scheduler or a worker can run programs there: so between machines only members with the
    cluster's certificate are spoken to."""
    if not scheduler:
        if local < 1:
            raise ToolError("a cluster is of workers here, `--local N`, or joins a scheduler, `--scheduler ADDRESS`")
        return
    if local:
        raise ToolError("--local starts workers here, and --scheduler joins those that are there: give one of them")
    there = urlsplit(scheduler)
    if there.scheme not in ("tcp", "tls") or not there.hostname:
        raise ToolError(f"{scheduler!r} is no address of a scheduler: those begin with tls:// or tcp://")
    if there.scheme == "tls" and not tls:
        raise ToolError(f"{scheduler} asks for the cluster's certificate: `--tls FOLDER` names where it is")
    if there.scheme == "tcp" and not _is_here(there.hostname):
        raise ToolError(
            f"{scheduler} is on another machine, and whoever reaches a scheduler without TLS can run programs there: start it with a "
            "certificate, and name it tls://, with `--tls FOLDER`"
        )


def placed(folder: Path, local: int) -> list[list[Shard]]:
    """The places of each archive, each with its worker. Folders here are given to the local workers in turn."""
    archives_in(folder)
    if not (folder / SHARDS).exists():
        raise ToolError(f"{folder} isn't split: `tt shard` does so")
    found = []
    for number, places in enumerate(table_of(folder)):
        row = []
        for turn, place in enumerate(places):
            if place.login:
                raise ToolError(f"{place} is reached through ssh, and a cluster by workers: write dask: and a worker's name in {folder / SHARDS}")
            if not place.worker and not local:
                raise ToolError(f"{place} names no worker: write a tab, dask: and its name behind the folder in {folder / SHARDS}")
            row.append(place if place.worker else Shard(place.folder.absolute(), worker=str((number + turn) % local)))
        found.append(row)
    return found


def _open(hall: Hall) -> None:
    """Opens all desks side by side; why one stays closed, `tt cluster status` tells."""

    def opened(desk: Desk) -> None:
        try:
            desk.open()
        except ToolError as error:
            say(f"{desk.place}: {error}")

    hall.each(opened)


def _opened(hall: Hall, workers: Sequence[str]) -> str:
    every = [desk for desks in hall.desks for desk in desks]
    there = sum(not desk.why for desk in every)
    return f"{counted(len(hall.desks), 'archive')} on {counted(len(workers), 'worker')}: {there} of {counted(len(every), 'place')} open"


def _is_here(host: str) -> bool:
    try:
        return ipaddress.ip_address(host).is_loopback
    except ValueError:
        return host == "localhost"


def _again() -> NoReturn:
    """Runs the same command by a Python that has Dask, with the packages of its system."""
    for python in (sys.executable, _SYSTEM):
        if os.access(python, os.X_OK) and subprocess.run([python, "-c", _ASKS_FOR_DASK]).returncode == 0:
            sys.stdout.flush()
            os.execv(python, [python, str(_TT), *sys.argv[1:]])
    raise ToolError(
        f"there is no Dask for this Python ({_SYSTEM} -c 'import distributed'): install the package python3-distributed "
        "(apt-get install --no-install-recommends python3-distributed)"
    )
