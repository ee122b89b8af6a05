"""`tt cluster` without Dask: what runs on workers runs here, and what Dask does where something dies is played."""

from __future__ import annotations

import os
import random
import shlex
import shutil
import socket
import sys
import threading
import time
import types
import unittest
from pathlib import Path
from typing import Any, Callable
from unittest import mock

from support import DAY, ArchiveCase, FourCase, answers, changes_of, find_program, needs, sample
from tt_archive_tools import commands
from tt_archive_tools.cluster import running
from tt_archive_tools.cluster.asking import FEEDS
from tt_archive_tools.cluster.desk import Desk, Silent
from tt_archive_tools.cluster.hall import Cutter, Hall
from tt_archive_tools.cluster.running import check_reach, placed
from tt_archive_tools.cluster.shard_program import ShardProgram
from tt_archive_tools.errors import InUse, ProgramFailed, ToolError
from tt_archive_tools.locks import CLUSTER, Claim, Use, locked
from tt_archive_tools.places import SHARDS, level_copies
from tt_archive_tools.program import Shard
from tt_archive_tools.serving.door import Door, address
from tt_archive_tools.serving.standing import Standing
from tt_archive_tools.sides import FIRST_QUESTION

QUESTIONS = 200
START = 13_717 * DAY


class HereEngine:
    """Runs what belongs on workers in this process. `broken` tells of a place why it can't be asked."""

    def __init__(self) -> None:
        self.broken: dict[Path, str] = {}
        self.before: Callable[[Path, str], None] = lambda folder, name: None

    def open(self, place: Shard, is_old: bool) -> Any:
        self._check(place.folder)
        return place.folder, ShardProgram(str(place.folder), find_program(None), is_old, wait=5)

    def call(self, held: Any, name: str, *words: object) -> Any:
        folder, program = held
        try:
            self.before(folder, name)
            self._check(folder)
        except ProgramFailed:
            program.close()  # it ends with its worker
            raise
        return getattr(program, name)(*words)

    def _check(self, folder: Path) -> None:
        if folder in self.broken:
            raise ProgramFailed(self.broken[folder])


class OneShard(ArchiveCase):
    def test_a_call_that_was_overtaken_or_comes_twice(self) -> None:
        program = ShardProgram(str(self.archive), find_program(None), True)
        count = 2 if answers("mark") else 1
        self.assertEqual(program.ask(1, commands.arrive(1, 5, b"a"), 1), b"ok %d\n" % count)
        for number in (1, 3, 0):
            with self.assertRaisesRegex(ProgramFailed, f"call {number} came behind call 1, and wasn't carried out"):
                program.ask(number, commands.arrive(1, 6, b"b"), 1)
        self.assertEqual(program.ask(2, commands.show(1, 9) * 2, 2), b"text 1\na\n" * 2)
        where = program.where()
        self.assertEqual((where.entries, where.last, where.worker_process), (count, 5, os.getpid()))
        self.assertEqual(program.close(), (0, ""))

    @unittest.skipUnless("fake_tt_archive" in os.environ.get("TT_ARCHIVE", ""), "only the stand-in can be one that knows less")
    def test_a_program_that_knows_no_batch_is_asked_for_them(self) -> None:
        with mock.patch.dict(os.environ, FAKE_WITHOUT="batch"):
            program = ShardProgram(str(self.archive), find_program(None), True)
        self.assertEqual(program.ask(1, commands.asks_for_batches(), 2), b"no 1 Line\nno 1 Line\nnone\n")
        self.assertEqual(program.ask(2, commands.show(1, 9), 1), b"none\n")
        program.close()
        program = ShardProgram(str(self.archive), find_program(None), True)
        self.assertEqual(program.ask(1, commands.asks_for_batches(), 2), b"no 16 BatchLine 1\nnone\n")
        program.close()

    def test_a_program_that_ends_tells_why_again_and_again(self) -> None:
        broken = ["sh", "-c", f"sed -u 2q | {shlex.join(find_program(None))}; echo tt_archive: disk fault >&2; exit 4"]
        program = ShardProgram(str(self.archive), broken, True)
        with self.assertRaisesRegex(ProgramFailed, "tt_archive: disk fault"):
            program.ask(1, commands.show(1, 9) * 3, 3)
        with self.assertRaisesRegex(ProgramFailed, "tt_archive: disk fault"):
            program.ask(2, commands.show(1, 9), 1)
        ShardProgram(str(self.archive), find_program(None), True).close()  # the folder is free

    def test_one_program_in_a_folder(self) -> None:
        program = ShardProgram(str(self.archive), find_program(None), True)
        with self.assertRaises(InUse):
            ShardProgram(str(self.archive), find_program(None), True, wait=0)
        self.assertIn("`tt cluster`", self.tt("--wait", "0", "find", "a", status=1).stderr)
        del program  # as where a worker forgets it
        ShardProgram(str(self.archive), find_program(None), True).close()

    def test_a_journal_that_is_gone(self) -> None:
        (self.archive / "archive.journal").unlink()
        with self.assertRaisesRegex(ToolError, "archive.journal is gone"):
            ShardProgram(str(self.archive), find_program(None), True)
        self.assertFalse((self.archive / "archive.journal").exists())

    def test_journals_in_pieces(self) -> None:
        self.fill(sample(seed=3, documents=9, count=30))
        program = ShardProgram(str(self.archive), find_program(None), True)
        extent = program.extent()
        piece = program.piece(16)
        assert piece
        self.assertEqual((piece.count, piece.gate), (31 if answers("mark") else 30, extent.gate))
        self.assertIsNone(program.piece(extent.gate))
        copy = ShardProgram(str(self.folder / "copy"), find_program(None), False)
        copy.ask(1, piece.script, piece.count)
        self.assertEqual((copy.extent(), copy.digest(extent.gate)), (extent, program.digest(extent.gate)))
        program.close()
        copy.close()


class Scripts(unittest.TestCase):
    def test_wherever_a_script_is_cut(self) -> None:
        acts = [commands.arrive(1, 2, b"two\nlines\n"), commands.arrive(2, 3, b""), b"delete 4 5\n", b"batch 2\n"]
        whole = [b"find 5 a\n", *acts[:3], commands.batch(acts), commands.batch([b"batch 1\n"]), b"show 1 2\n"]
        script = b"".join(whole)
        for size in range(1, len(script) + 1):
            cutter, found = Cutter(), []
            for at in range(0, len(script), size):
                cutter.add(script[at : at + size])
                found += cutter.commands()
            self.assertEqual((found, len(cutter)), (whole, 0))


class Clustered(FourCase):
    """Four archives, each with a copy, behind the door of a cluster that runs in this process."""

    def setUp(self) -> None:
        super().setUp()
        for number in range(4):
            (self.folder / f"copy-{number}").mkdir()
        lines = [f"{self.archive}/shard-{n}\tdask:a\t{self.folder}/copy-{n}\tdask:b\n" for n in range(4)]
        (self.archive / SHARDS).write_text("".join(lines))
        self.engine = HereEngine()
        self.hall = Hall(self.archive, placed(self.archive, 0), self.engine)
        self.door = Door(self.archive / CLUSTER, self.hall.attend)
        self.door.open()
        self.addCleanup(self.close)

    def close(self) -> None:
        self.door.close(grace=1)
        for desks in self.hall.desks:
            for desk in desks:
                desk.close()

    def journals(self, kind: str = "shard") -> list[bytes]:
        parent = self.archive if kind == "shard" else self.folder
        return [(parent / f"{kind}-{number}" / "archive.journal").read_bytes() for number in range(4)]

    def tree(self, count: int) -> Path:
        tree = self.folder / "tree"
        tree.mkdir(exist_ok=True)
        for index in range(count):
            (tree / f"{index}.txt").write_text(f"text {index} w{index % 5} " * 10)
            os.utime(tree / f"{index}.txt", (START + 60 * index, START + 60 * index))
        return tree

    def by_pipes(self, tree: Path) -> list[bytes]:
        """The journals of the same import through pipes."""
        self.tt("-C", self.one, "shard", 4, self.folder / "piped", "--empty")
        self.tt("-C", self.folder / "piped", "import", "folder", tree)
        return [(self.folder / "piped" / f"shard-{number}" / "archive.journal").read_bytes() for number in range(4)]

    def test_questions_are_answered_as_by_one_archive(self) -> None:
        versions = sample(seed=11, documents=40, count=300)
        self.fill(versions, self.one)
        self.fill(versions)
        chance = random.Random(5)
        first, last = versions[0].time, versions[-1].time + DAY
        forms = ["{0}"] + (["{0} {1}", "{0} or {1} and not {2}", "not {0}", "({0} or {1}) {2}"] if answers("queries") else [])
        rows = 0
        ask = Claim(use=Use.ASKS)
        with self.open(self.one) as one, self.open() as four:
            four_asks = type(four)(self.archive, find_program(None), ask)
            with four_asks:
                for index in range(QUESTIONS):
                    expr = chance.choice(forms).format(*(f"w{chance.randrange(11)}" for _ in range(3)))
                    start, end = sorted(chance.sample(range(first - DAY, last), 2))
                    question = commands.between(start, end, expr) if index % 2 and answers("between") else commands.find(start, expr)
                    wanted = one.ask_rows(question)
                    self.assertEqual(four.ask_rows(question), wanted, question)
                    self.assertEqual(four_asks.ask_rows(question), wanted, question)
                    rows += len(wanted.rows)
        self.assertGreater(rows, 1_000)

    def test_an_import_comes_to_all_copies(self) -> None:
        tree = self.tree(90)
        self.assertIn("90 versions", self.tt("import", "folder", tree).stdout)
        self.assertEqual(self.journals(), self.by_pipes(tree))
        self.assertEqual(self.journals("copy"), self.journals())
        self.assertEqual(len(level_copies(self.archive)), 4)
        wanted = self.tt("-C", self.folder / "piped", "find", "w3").stdout
        self.assertEqual(self.tt("find", "w3").stdout, wanted)
        self.assertEqual(self.tt("cluster", "status").stdout.count("level"), 4)

    def test_a_long_text(self) -> None:
        text = "the longest text " * 200_000
        tree = self.tree(4)
        (tree / "long.txt").write_text(text)
        os.utime(tree / "long.txt", (START, START))
        self.assertIn("5 versions", self.tt("import", "folder", tree).stdout)
        self.assertEqual(self.tt("show", "long.txt").stdout, text + "\n")
        self.assertEqual(self.journals("copy"), self.journals())

    def test_a_lost_place_and_its_copy(self) -> None:
        self.tt("import", "folder", self.tree(90))
        wanted = self.tt("find", "w3").stdout
        self.engine.broken[self.archive / "shard-2"] = "the worker was killed"
        done = self.tt("find", "w3")
        self.assertEqual(done.stdout, wanted)
        self.assertEqual(done.stderr, f"tt: a:{self.archive}/shard-2: the worker was killed; b:{self.folder}/copy-2 is asked in its place\n")
        self.assertIn("lost: the worker was killed", self.tt("cluster", "status").stdout)
        self.engine.broken[self.folder / "copy-2"] = "the worker is silent since 15 seconds"
        done = self.tt("find", "w3", status=1)
        self.assertEqual(done.stdout, "")
        self.assertIn("the worker was killed; ", done.stderr)
        self.assertIn("the worker is silent since 15 seconds", done.stderr)
        self.assertIn("no place of shard 2 can be asked", self.tt("cluster", "status", status=1).stderr)
        self.assertIn("nothing is changed without it", self.tt("import", "folder", self.tree(92), status=1).stderr)
        self.engine.broken.clear()
        self.assertIn("2 versions", self.tt("import", "folder", self.tree(92)).stdout)
        self.assertEqual(self.journals("copy"), self.journals())

    def test_a_program_that_is_started_again(self) -> None:
        """A place that is there again at once is asked again: its program was killed, and its worker starts another."""
        self.tt("import", "folder", self.tree(20))
        (self.archive / SHARDS).write_text("".join(f"{self.archive}/shard-{n}\tdask:a\n" for n in range(4)))
        for desks in self.hall.desks:
            desks.pop().close()
        wanted = self.tt("find", "w3").stdout
        failures = iter([True])

        def fail_once(folder: Path, name: str) -> None:
            if folder.name == "shard-1" and name == "ask" and next(failures, False):
                raise ProgramFailed("tt_archive was killed (signal 9, SIGKILL)")

        self.engine.before = fail_once
        done = self.tt("find", "w3")
        self.assertEqual(done.stdout, wanted)
        self.assertIn("tt_archive was killed", done.stderr)

    def test_lost_in_the_middle_of_an_import(self) -> None:
        tree = self.tree(120)
        for kind, status in (("copy", 0), ("shard", 1)):
            with self.subTest(kind):
                calls = {"left": 4}

                def lose(folder: Path, name: str) -> None:
                    if folder.name == f"{kind}-1" and name == "ask":  # noqa: B023
                        calls["left"] -= 1  # noqa: B023
                        if calls["left"] <= 0:  # noqa: B023
                            self.engine.broken[folder] = "the worker was killed"

                self.engine.before = lose
                done = self.tt("import", "folder", tree, status=status)
                self.assertIn("the worker was killed", done.stderr)
                self.engine.before = lambda folder, name: None
                self.engine.broken.clear()
                more = self.tree(120 + 3 * (status + 1))
                self.assertNotIn("refused", self.tt("import", "folder", more).stdout)
                self.assertEqual(self.journals("copy"), self.journals())
        self.assertEqual([*map(changes_of, self.journals())], [*map(changes_of, self.by_pipes(tree))])

    def test_a_tt_that_was_killed_is_carried_out_before_the_next(self) -> None:
        """What it sent is in the socket; whoever feeds next waits until it is carried out."""
        slow = threading.Event()

        def hold(folder: Path, name: str) -> None:
            if folder.name == "shard-1" and name == "ask" and threading.current_thread() is not threading.main_thread():
                slow.wait(1)

        self.engine.before = hold
        with locked(self.archive, Claim()):
            with socket.socket(socket.AF_UNIX) as killed, address(self.archive / CLUSTER) as path:
                killed.connect(path)
                killed.sendall(FEEDS % (1, 0) + FIRST_QUESTION)
                self.assertEqual(killed.recv(99), b"reply 5\nnone\n")
                killed.sendall(b"".join(commands.arrive(5, START + n, b"sent before the kill") for n in range(20)))
        # The first file lies before the last of what was sent, which so is known before anything more is.
        self.assertIn("refused, TimeBack: 1\n", self.tt("import", "folder", self.tree(20)).stdout)

    def test_who_may_change(self) -> None:
        for hello, said in ((b"asks 0 0\n", b"folder's lock"), (FEEDS % (0, 0), b"folder's lock"), (b"what\n", b"doesn't know")):
            with socket.socket(socket.AF_UNIX) as visitor, address(self.archive / CLUSTER) as path:
                visitor.connect(path)
                visitor.sendall(hello + commands.arrive(4, START, b"text"))
                self.assertIn(said, visitor.makefile("rb").read())
        self.assertEqual((self.archive / CLUSTER).stat().st_mode & 0o777, 0o600)

    @needs("batches")
    def test_place_and_drop(self) -> None:
        self.tt("import", "folder", self.tree(40))
        new = self.folder / "new" / "copy-3"
        self.assertEqual(
            self.tt("cluster", "place", 3, "c", new).stdout, f"c:{new} is a copy of shard 3, with 3 entries sent to it now\n"
        )  # the mark and two batches
        self.assertEqual((new / "archive.journal").read_bytes(), self.journals()[3])
        self.assertIn("has a place already", self.tt("cluster", "place", 3, "c", new, status=1).stderr)
        self.assertIn("isn't a whole path", self.tt("cluster", "place", 3, "c", "here", status=1).stderr)
        self.assertIn("there is no shard 9", self.tt("cluster", "place", 9, "c", new, status=1).stderr)
        self.tt("import", "folder", self.tree(44))
        self.assertEqual((new / "archive.journal").read_bytes(), self.journals()[3])
        self.assertIn("is no place of shard 3 any more", self.tt("cluster", "drop", 3, "a").stdout)
        self.assertEqual((self.archive / SHARDS).read_text().splitlines()[3], f"{self.folder}/copy-3\tdask:b\t{new}\tdask:c")
        self.assertIn("44 documents", self.tt("find", "text").stdout)
        self.assertIn("3 versions", self.tt("import", "folder", self.tree(47)).stdout)
        self.tt("cluster", "drop", 3, "c")
        self.assertIn("has no other place", self.tt("cluster", "drop", 3, "b", status=1).stderr)
        (self.archive / "level.tsv").write_text("")
        self.assertIn("may lack what was acknowledged", self.tt("cluster", "drop", 2, "a", status=1).stderr)

    @needs("batches")
    def test_a_copy_whose_folder_was_emptied(self) -> None:
        self.tt("import", "folder", self.tree(40))
        self.tt("cluster", "stop")
        self.assertTrue(self.hall.stopped.is_set())
        shutil.rmtree(self.folder / "copy-0")
        self.engine.broken[self.archive / "shard-0"] = "the worker was killed"
        self.assertIn("archive.journal is gone", self.tt("find", "text", status=1).stderr)  # and is not made anew, empty
        self.engine.broken.clear()
        self.assertIn("copy-0 was brought up by 3 entries", self.tt("import", "folder", self.tree(41)).stderr)
        self.assertEqual(self.journals("copy"), self.journals())

    def test_pages_over_a_cluster(self) -> None:
        self.tt("import", "folder", self.tree(20))
        standing = Standing(self.archive, find_program(None), Claim(use=Use.SERVES))
        standing.open()
        try:
            self.assertEqual(len(standing.find("text", START + DAY).rows), 20)
            # An import has its turn, and the pages show what it brought.
            self.tt("import", "folder", self.tree(23))
            until = time.monotonic() + 20
            while len(standing.find("text", START + DAY).rows) < 23 and time.monotonic() < until:
                time.sleep(0.05)
            self.assertEqual(len(standing.find("text", START + DAY).rows), 23)
        finally:
            standing.close()

    def test_without_a_cluster(self) -> None:
        self.close()
        for words in (["status"], ["stop"], ["place", "0", "a", "/b"], ["drop", "0", "a"]):
            self.assertIn("cluster start` starts one", self.tt("cluster", *words, status=1).stderr)
        self.assertIn("no cluster is started", self.tt("find", "text", status=1).stderr)


class Reaching(unittest.TestCase):
    def test_between_machines_only_with_a_certificate(self) -> None:
        folder = Path("certificates")
        for scheduler, tls, local, said in (
            ("tcp://10.0.0.1:8786", None, 0, "without TLS can run programs there"),
            ("tcp://head.example:8786", folder, 0, "without TLS can run programs there"),
            ("tls://head.example:8786", None, 0, "asks for the cluster's certificate"),
            ("head.example:8786", folder, 0, "is no address of a scheduler"),
            (None, None, 0, "`--local N`"),
            ("tls://head.example:8786", folder, 2, "give one of them"),
        ):
            with self.assertRaisesRegex(ToolError, said):
                check_reach(scheduler, tls, local)
        for scheduler, tls, local in (("tcp://127.0.0.1:8786", None, 0), ("tls://head.example:8786", folder, 0), (None, None, 4)):
            check_reach(scheduler, tls, local)


    def test_where_dask_is_absent(self) -> None:
        absent = {"_SYSTEM": "/none/python3", "_ASKS_FOR_DASK": "raise SystemExit(1)"}
        with mock.patch.multiple(running, **absent), self.assertRaisesRegex(ToolError, "install the package python3-distributed"):
            running._again()


class FakeFuture:
    """What Dask gives for a call: each of `outcomes` in turn, of which an exception is raised."""

    def __init__(self, *outcomes: Any) -> None:
        self.outcomes = list(outcomes)

    def result(self, timeout: float) -> Any:
        outcome = self.outcomes.pop(0) if len(self.outcomes) > 1 else self.outcomes[0]
        if isinstance(outcome, BaseException):
            raise outcome
        return outcome


class FakeTimeout(Exception):
    """What Dask raises where a result isn't there in time."""


class WhereDaskFails(unittest.TestCase):
    def setUp(self) -> None:
        modules = {name: types.ModuleType(name) for name in ("dask", "distributed", "distributed.security")}
        modules["distributed"].__dict__.update(Client=None, LocalCluster=None, TimeoutError=FakeTimeout)
        modules["distributed.security"].__dict__.update(Security=None)
        modules["dask"].__dict__.update(config=mock.Mock())
        loaded = mock.patch.dict(sys.modules, modules)
        loaded.start()
        self.addCleanup(loaded.stop)
        sys.modules.pop("tt_archive_tools.cluster.dask_engine", None)
        from tt_archive_tools.cluster import dask_engine

        self.addCleanup(sys.modules.pop, "tt_archive_tools.cluster.dask_engine", None)
        patience = mock.patch.multiple(dask_engine, _SILENT=0.05)
        patience.start()
        self.addCleanup(patience.stop)
        self.engine = object.__new__(dask_engine.DaskEngine)
        self.seen = iter(range(10))
        self.workers = {"tcp://w": {"name": "worker-a", "last_seen": 7}}
        self.client = mock.Mock(status="running", scheduler_info=lambda: {"workers": self.workers})
        self.engine._client, self.engine.address, self.engine._command = self.client, "tcp://head", ["tt_archive"]

    def call(self, *outcomes: Any) -> Any:
        actor = types.SimpleNamespace(ask=lambda *words: FakeFuture(*outcomes))
        return self.engine.call((actor, "tcp://w"), "ask", 1, b"", 1)

    def test_answers(self) -> None:
        self.assertEqual(self.call(b"ok 1\n"), b"ok 1\n")
        self.assertEqual(self.call(FakeTimeout(), b"ok 1\n"), b"ok 1\n")
        with self.assertRaisesRegex(ProgramFailed, "disk fault"):
            self.call(ProgramFailed("tt_archive: disk fault"))

    def test_a_worker_that_is_killed(self) -> None:
        for error in (OSError("Unable to contact Actor's worker"), ValueError("Worker holding Actor was lost")):
            with self.assertRaisesRegex(ProgramFailed, "the worker was killed"):
                self.call(error)
        with self.assertRaisesRegex(ProgramFailed, "the worker was killed"):
            self.workers = {}
            self.call(FakeTimeout())

    def test_a_worker_that_hangs(self) -> None:
        with self.assertRaisesRegex(ProgramFailed, "the worker is silent"):
            self.call(FakeTimeout())

    def test_a_call_that_takes_long_is_waited_for(self) -> None:
        until = time.monotonic() + 0.3

        class Working(dict):  # type: ignore[type-arg]
            def __getitem__(self, key: str) -> Any:
                return time.monotonic() if key == "last_seen" else dict.__getitem__(self, key)

        self.workers = {"tcp://w": Working(name="worker-a")}

        class Late(FakeFuture):
            def result(self, timeout: float) -> Any:
                if time.monotonic() < until:
                    time.sleep(0.01)
                    raise FakeTimeout
                return b"ok 9\n"

        actor = types.SimpleNamespace(ask=lambda *words: Late())
        self.assertEqual(self.engine.call((actor, "tcp://w"), "ask"), b"ok 9\n")

    def test_a_scheduler_that_is_gone(self) -> None:
        self.client.status = "closed"
        with self.assertRaisesRegex(ProgramFailed, "the scheduler at tcp://head is gone"):
            self.call(OSError("Timed out"))

    def test_a_worker_that_is_not_there(self) -> None:
        with self.assertRaisesRegex(ToolError, "no worker of the cluster is called worker-z; it has 1 worker"):
            self.engine.open(Shard(Path("/srv"), worker="worker-z"), True)

    def test_a_program_that_cannot_be_opened(self) -> None:
        future = FakeFuture(InUse("another tt is at work"))
        future.cancel = mock.Mock()  # type: ignore[attr-defined]
        self.client.submit = mock.Mock(return_value=future)
        with self.assertRaisesRegex(InUse, "another tt"):
            self.engine.open(Shard(Path("/srv"), worker="worker-a"), True)
        future.cancel.assert_called_once()  # type: ignore[attr-defined]
        self.assertEqual(self.client.submit.call_args.kwargs["retries"], 0)


class Desks(unittest.TestCase):
    def setUp(self) -> None:
        self.engine = mock.Mock()
        self.desk = Desk(Shard(Path("/srv"), worker="a"), self.engine, lambda: True)

    def asked(self) -> list[int]:
        """The numbers of the calls that were made."""
        return [call.args[2] for call in self.engine.call.call_args_list if call.args[1] == "ask"]

    def test_a_lost_place_is_opened_anew(self) -> None:
        self.engine.call.side_effect = [b"ok 1\n", ProgramFailed("the worker was killed"), ProgramFailed("the worker was killed"), b"ok 2\n"]
        with self.assertRaisesRegex(ProgramFailed, "isn't open"):
            self.desk.ask(b"", 1)
        self.desk.open()
        self.assertEqual(self.desk.ask(b"a", 1), b"ok 1\n")
        for _ in range(2):
            with self.assertRaisesRegex(ProgramFailed, "the worker was killed"):
                self.desk.ask(b"b", 1)
        self.desk.open()
        self.desk.ask(b"c", 1)
        self.assertEqual((self.asked(), self.engine.open.call_count), ([1, 2, 1], 2))

    def test_a_silent_place_goes_on(self) -> None:
        """Whether it got what was under way, its own count tells."""
        for carried_out in (1, 2):
            self.setUp()
            self.engine.call.side_effect = [b"ok 1\n", Silent("the worker is silent"), Silent("the worker is silent"), carried_out, b"ok 2\n"]
            self.desk.open()
            self.desk.ask(b"a", 1)
            with self.assertRaises(Silent):
                self.desk.ask(b"b", 1)
            with self.assertRaises(Silent):
                self.desk.open()
            self.desk.open()
            self.desk.ask(b"c", 1)
            self.assertEqual((self.asked(), self.engine.open.call_count), ([1, 2, carried_out + 1], 1))


if __name__ == "__main__":
    unittest.main()
