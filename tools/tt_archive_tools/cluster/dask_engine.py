"""Dask distributed, which runs `ShardProgram` as actors on workers. Nothing else of the tools knows it."""

from __future__ import annotations

import logging
import signal
import time
from contextlib import ExitStack
from pathlib import Path
from tempfile import TemporaryDirectory
from typing import Any, Callable, Mapping, Sequence

import dask
from distributed import Client, LocalCluster, TimeoutError
from distributed.security import Security

from ..errors import ProgramFailed, ToolError
from ..program import Shard
from ..wording import counted
from .desk import Silent
from .shard_program import ShardProgram

#: So often it is looked whether the worker of a call is still there, and so long it may be silent, in seconds.
_LOOK, _SILENT = 1.0, 15.0
#: So long a cluster has to answer at first.
_START = 60.0
#: Where Dask serves pages about itself, which has to be somewhere: for this machine alone, and without any page.
_NO_PAGES = "127.0.0.1:0"
_FILES = {"ca_file": "ca.pem", "cert": "cert.pem", "key": "key.pem"}


def certificates(folder: Path) -> Security:
    """The certificate of a cluster and its key, with which all its members are known to one another."""
    paths = {what: folder / file for what, file in _FILES.items()}
    for path in paths.values():
        if not path.is_file():
            raise ToolError(f"there is no {path}: a cluster's folder has {', '.join(_FILES.values())}")
    ca, cert, key = map(str, paths.values())
    roles = {f"tls_{role}_{what}": path for role in ("client", "scheduler", "worker") for what, path in (("cert", cert), ("key", key))}
    return Security(tls_ca_file=ca, require_encryption=True, **roles)


class DaskEngine:
    """Joined with a scheduler, or with one of its own, until it is closed."""

    def __init__(self, command: Sequence[str], scheduler: str | None, local: int, tls: Path | None) -> None:
        """`scheduler` is the address of one that runs, or there are `local` workers here, called 0, 1 and so on."""
        _be_silent()
        security = certificates(tls) if tls else None
        self._command = list(command)
        self._local: LocalCluster | None = None
        self._ending = ExitStack()
        try:
            if not scheduler:
                self._local = _local_cluster(local, security, self._ending.enter_context(TemporaryDirectory(prefix="tt-cluster-")))
            self.address = scheduler or str(self._local.scheduler_address)  # type: ignore[union-attr]
            # Calls go to the workers themselves, so that the scheduler carries nothing of what is asked.
            self._client = Client(self.address, security=security, timeout=_START, direct_to_workers=True)
            self._client.get_versions(check=True)
        except (OSError, ValueError, TimeoutError) as error:
            self._end_local()
            raise ToolError(f"the scheduler at {scheduler or 'this machine'} can't be joined: {error}") from None

    def workers(self) -> list[str]:
        """The names of the workers that are there."""
        return sorted(str(worker["name"]) for worker in self._workers().values())

    def open(self, place: Shard, is_old: bool) -> tuple[Any, str]:
        address = self._address(place.worker)
        future = self._client.submit(
            ShardProgram, str(place.folder), self._command, is_old,
            workers=[address], allow_other_workers=False, actor=True, pure=False, retries=0,
        )  # fmt: skip
        try:
            return self._wait(future.result, address), address
        except BaseException:
            future.cancel()
            raise

    def call(self, held: tuple[Any, str], name: str, *words: object) -> Any:
        actor, address = held
        try:
            future = getattr(actor, name)(*words)
        except ValueError:  # Dask knows already that it is gone
            raise self._gone() from None
        return self._wait(future.result, address)

    def close(self) -> None:
        self._client.close(timeout=5)
        self._end_local()

    def _wait(self, result: Callable[..., Any], address: str) -> Any:
        """What is to come from a worker, for as long as the worker is there."""
        seen, since = None, time.monotonic()
        while True:
            try:
                return result(timeout=_LOOK)
            except TimeoutError:
                worker = self._workers().get(address)
                if worker is None:
                    raise self._gone() from None
                if worker["last_seen"] != seen:
                    seen, since = worker["last_seen"], time.monotonic()
                elif time.monotonic() - since > _SILENT:
                    raise Silent(f"the worker is silent since {_SILENT:.0f} seconds") from None
            except ToolError:
                raise
            except Exception as error:
                raise self._gone(error) from None

    def _gone(self, error: Exception | None = None) -> ProgramFailed:
        """Why a worker doesn't answer."""
        self._workers()  # is an error where the scheduler is gone
        lost = error is None or isinstance(error, (OSError, ValueError)) or "KilledWorker" in type(error).__name__
        return ProgramFailed("the worker was killed, or its machine is away" if lost else f"{type(error).__name__}: {error}")

    def _workers(self) -> Mapping[str, Mapping[str, Any]]:
        try:
            if self._client.status == "running":
                return self._client.scheduler_info()["workers"]
        except Exception:  # Dask raises of many kinds here
            pass
        raise ProgramFailed(
            f"the scheduler at {self.address} is gone, and the workers end without it; what was acknowledged is in their folders: "
            "start scheduler and workers again, and then `tt cluster start`"
        )

    def _address(self, name: str) -> str:
        """The address of a worker, which has another one each time it is started."""
        workers = self._workers()
        for address, worker in workers.items():
            if str(worker["name"]) == name:
                return str(address)
        raise ToolError(f"no worker of the cluster is called {name}; it has {counted(len(workers), 'worker')}")

    def _end_local(self) -> None:
        if self._local:
            self._local.close(timeout=10)
        self._ending.close()


def _local_cluster(count: int, security: Security | None, folder: str) -> LocalCluster:
    before = signal.signal(signal.SIGINT, signal.SIG_IGN)  # Ctrl-C is for tt, which ends the programs in order first
    try:
        return LocalCluster(
            n_workers=count, threads_per_worker=1, processes=True, memory_limit=0, host="127.0.0.1",
            dashboard_address=None, scheduler_kwargs={"dashboard_address": _NO_PAGES}, worker_dashboard_address=_NO_PAGES,
            local_directory=folder,
            protocol="tls://" if security else "tcp://", security=security, silence_logs=logging.CRITICAL,
        )  # fmt: skip
    finally:
        signal.signal(signal.SIGINT, before)


def _be_silent() -> None:
    """What Dask logs, pages of tracebacks where a worker dies, is said in one line by whoever asked."""
    for name in ("distributed", "tornado", "asyncio", "bokeh"):
        logging.getLogger(name).setLevel(logging.CRITICAL)
    # What is set here comes to workers that are started here, too.
    no_pages = {f"distributed.{member}.http.routes": [] for member in ("scheduler", "worker")}
    dask.config.set({"logging": {"distributed": "critical"}, "distributed.scheduler.allowed-failures": 0, **no_pages})
