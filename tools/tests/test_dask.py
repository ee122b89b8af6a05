"""`tt cluster` on Dask, where that is installed: four workers on the loopback address, and what is killed there."""

from __future__ import annotations

import os
import random
import re
import shutil
import signal
import socket
import subprocess
import sys
import threading
import time
import unittest
from pathlib import Path
from typing import Any

from support import DAY, TOOLS, FourCase, answers, changes_of, find_program, sample
from tt_archive_tools import commands
from tt_archive_tools.cluster.asking import request
from tt_archive_tools.collection import Collection
from tt_archive_tools.copying import JournalFile
from tt_archive_tools.locks import Claim, Use
from tt_archive_tools.places import level_copies
from tt_archive_tools.program import Shard
from tt_archive_tools.replies import Rows

QUESTIONS = 200
START = 13_717 * DAY
_FIND = "import sys; from importlib.util import find_spec; sys.exit(find_spec('distributed') is None)"
#: A Python that has Dask, which needn't be the one that runs the tests.
PYTHON = next((it for it in (sys.executable, "/usr/bin/python3") if os.access(it, os.X_OK) and not subprocess.run([it, "-c", _FIND]).returncode), "")


class Started(FourCase):
    """A collection of four archives, each with a copy, and a cluster that is started."""

    def write_table(self, copies: bool, worker: str = "") -> None:
        """Archive n on worker n; its copy on the next one."""
        lines = []
        for number in range(4):
            (self.folder / f"copy-{number}").mkdir(exist_ok=True)
            line = f"{self.archive}/shard-{number}\tdask:{worker}{number}"
            lines.append(line + (f"\t{self.folder}/copy-{number}\tdask:{worker}{(number + 1) % 4}\n" if copies else "\n"))
        (self.archive / "shards.tsv").write_text("".join(lines))

    def start(self, *words: object) -> subprocess.Popen[str]:
        run = [PYTHON, str(TOOLS / "tt"), "-C", str(self.archive), "cluster", "start", *map(str, words)]
        pipe = subprocess.PIPE
        started = subprocess.Popen(run, stdout=pipe, stderr=pipe, text=True)
        self.addCleanup(self.end, started)
        assert started.stdout
        said = started.stdout.readline()
        if not said:
            self.fail(started.communicate()[1])
        self.opened = said
        return started

    def end(self, started: subprocess.Popen[str]) -> str:
        if started.stdout and started.stdout.closed:
            return ""
        if started.poll() is None:
            started.terminate()
        try:
            return started.communicate(timeout=60)[1]
        except subprocess.TimeoutExpired:
            started.kill()
            return started.communicate()[1]

    def asking(self) -> Collection:
        return Collection(self.archive, find_program(None), Claim(use=Use.ASKS))

    def place(self, shard: int, number: int = 0) -> Any:
        return request(self.archive, "status")[shard][number]

    def kill(self, what: str, shard: int, number: int = 0) -> None:
        """KILL to the program of a place, or to its worker."""
        os.kill(self.place(shard, number)[what], signal.SIGKILL)

    def until_all_are_there(self) -> None:
        until = time.monotonic() + 60
        while any("why" in place for places in request(self.archive, "status") for place in places):
            self.assertLess(time.monotonic(), until, request(self.archive, "status"))
            time.sleep(0.2)

    def tree(self, count: int) -> Path:
        tree = self.folder / "tree"
        tree.mkdir(exist_ok=True)
        for index in range(count):
            (tree / f"{index}.txt").write_text(f"text {index} w{index % 5} " * 10)
            os.utime(tree / f"{index}.txt", (START + 60 * index, START + 60 * index))
        return tree

    def journal(self, folder: Path) -> bytes:
        """A journal up to its closed gate, which is looked up first: behind it a program may be at work, or lies what a kill left."""
        gate = JournalFile(Shard(folder)).extent().gate
        return (folder / "archive.journal").read_bytes()[:gate]

    def journals(self) -> list[bytes]:
        return [self.journal(self.archive / f"shard-{number}") for number in range(4)]

    def copies(self) -> list[bytes]:
        return [self.journal(self.folder / f"copy-{number}") for number in range(4)]

    def by_pipes(self, tree: Path) -> list[bytes]:
        piped = self.folder / "piped"
        shutil.rmtree(piped, ignore_errors=True)
        self.tt("-C", self.one, "shard", 4, piped, "--empty")
        self.tt("-C", piped, "import", "folder", tree)
        return [self.journal(piped / f"shard-{number}") for number in range(4)]

    def questions(self, first: int, last: int) -> list[bytes]:
        chance = random.Random(5)
        forms = ["{0}"] + (["{0} {1}", "{0} or {1} and not {2}", "not {0}", "({0} or {1}) {2}"] if answers("queries") else [])
        found = []
        for index in range(QUESTIONS):
            expr = chance.choice(forms).format(*(f"w{chance.randrange(11)}" for _ in range(3)))
            start, end = sorted(chance.sample(range(first - DAY, last), 2))
            found.append(commands.between(start, end, expr) if index % 2 and answers("between") else commands.find(start, expr))
        return found


@unittest.skipUnless(PYTHON, "python3-distributed isn't installed")
class FourWorkers(Started):
    def setUp(self) -> None:
        super().setUp()
        self.write_table(copies=True)
        self.start("--local", 4)
        self.assertEqual(self.opened, "4 archives on 4 workers: 8 of 8 places open\n")

    def fill_both(self) -> list[tuple[bytes, Rows]]:
        """The same versions in one archive and in four, and what the one answers to the questions."""
        versions = sample(seed=11, documents=40, count=300)
        self.fill(versions, self.one)
        self.fill(versions)
        if answers("sublists"):
            for word in ("w1", "w2", "w3"):
                self.tt("-C", self.one, "plan", word, "guarantee", "3/2")
                self.tt("plan", word, "guarantee", "3/2")
        with self.open(self.one) as one:
            return [(question, one.ask_rows(question)) for question in self.questions(versions[0].time, versions[-1].time + DAY)]

    def test_questions_also_while_a_program_and_workers_are_killed(self) -> None:
        wanted = self.fill_both()
        self.assertGreater(sum(len(rows.rows) for _, rows in wanted), 1_000)
        self.assertEqual(self.copies(), self.journals())
        with self.asking() as four:
            for question, rows in wanted:
                self.assertEqual(four.ask_rows(question).rows, rows.rows, question)
        # Now one after another is killed meanwhile: a program, a worker that has a first place and a copy, another one.
        kills = iter([("process", 0), ("worker_process", 2), ("worker_process", 0)])
        with self.asking() as four:
            for index, (question, rows) in enumerate(wanted):
                if index in (20, 60, 140):
                    what, shard = next(kills)
                    self.until_all_are_there()
                    threading.Timer(0.02, self.kill, (what, shard)).start()
                self.assertEqual(four.ask_rows(question).rows, rows.rows, question)
        self.until_all_are_there()
        self.assertEqual(self.tt("cluster", "status").stdout.count("copy, level"), 4)

    def test_imports_while_a_program_and_workers_are_killed(self) -> None:
        imports = [sys.executable, str(TOOLS / "tt"), "-C", str(self.archive), "import", "folder", str(self.folder / "tree")]
        grows = self.archive / "shard-1" / "archive.journal"
        before, hit = self.journals(), 0
        kills = (("process", 1, 0), ("worker_process", 2, 0), ("worker_process", 3, 1), ("process", 0, 1))
        for count, (what, shard, number) in enumerate(kills, 1):
            self.tree(240 * count)
            self.until_all_are_there()
            victim, size = self.place(shard, number)[what], grows.stat().st_size
            with subprocess.Popen(imports, stdout=subprocess.PIPE, stderr=subprocess.PIPE, text=True) as tt:
                while tt.poll() is None and grows.stat().st_size < size + 500:
                    time.sleep(0.002)
                os.kill(victim, signal.SIGKILL)
                said = "".join(tt.communicate())
            self.assertNotIn("refused", said)
            self.assertIn(tt.returncode, (0, 1), said)
            hit += tt.returncode == 1 or "left out" in said
            # What was there is there.
            self.assertTrue(all(now.startswith(then) for now, then in zip(self.journals(), before)))
            before = self.journals()
        self.assertGreater(hit, 0, "no kill came in the middle of an import")
        self.until_all_are_there()
        tree = self.tree(240 * len(kills) + 4)
        self.assertNotIn("refused", self.tt("import", "folder", tree).stdout)
        self.assertEqual(self.copies(), self.journals())
        self.assertEqual([*map(changes_of, self.journals())], [*map(changes_of, self.by_pipes(tree))])
        self.assertEqual(len(level_copies(self.archive)), 4)

    def test_two_at_once_and_pages(self) -> None:
        tree = self.tree(40)
        self.tt("import", "folder", tree)
        find = [sys.executable, str(TOOLS / "tt"), "-C", str(self.archive), "find", "w3"]
        wanted = subprocess.run(find, capture_output=True, text=True).stdout
        together = [subprocess.Popen(find, stdout=subprocess.PIPE, text=True) for _ in range(3)]
        self.assertEqual([tt.communicate()[0] for tt in together], [wanted] * 3)
        serve = [sys.executable, "-S", str(TOOLS / "tt"), "-C", str(self.archive), "serve", "--port", "0"]
        with subprocess.Popen(serve, stdout=subprocess.PIPE, stderr=subprocess.PIPE, text=True) as served:
            try:
                assert served.stdout
                port = int(served.stdout.readline().split(":")[2].rstrip("/\n"))
                with socket.create_connection(("127.0.0.1", port), timeout=60) as asking:
                    asking.sendall(f"GET /find?q=w3&at=2007-08-01 HTTP/1.0\r\nHost: 127.0.0.1:{port}\r\n\r\n".encode())
                    page = asking.makefile("rb").read().decode()
                self.assertEqual(len(re.findall(r'class="name"', page)), 8, page)
            finally:
                served.terminate()
                served.communicate()

    def test_placed_dropped_and_stopped(self) -> None:
        self.tt("import", "folder", self.tree(40))
        self.tt("cluster", "place", 1, 3, self.folder / "third")
        self.assertEqual(self.journal(self.folder / "third"), self.journals()[1])
        self.tt("cluster", "drop", 1, 1)
        self.assertIn("40 documents", self.tt("find", "text").stdout)
        self.assertIn("a cluster is started in", self.refused("--local", 1))
        self.assertEqual(self.tt("cluster", "stop").stdout.count("ended in order\n"), 8)
        self.assertIn("no cluster is started", self.tt("find", "text", status=1).stderr)
        self.start("--local", 4)
        self.assertIn("40 documents", self.tt("find", "text").stdout)

    def refused(self, *words: object) -> str:
        run = [PYTHON, str(TOOLS / "tt"), "-C", str(self.archive), "cluster", "start", *map(str, words)]
        return subprocess.run(run, capture_output=True, text=True).stderr


@unittest.skipUnless(PYTHON, "python3-distributed isn't installed")
class WithoutCopies(Started):
    def test_a_part_of_the_rows_is_never_shown(self) -> None:
        self.start("--local", 2)  # which takes folders here, two each
        self.tt("import", "folder", self.tree(40))
        wanted = self.tt("find", "w3").stdout
        worker = self.place(1)["worker_process"]
        os.kill(worker, signal.SIGSTOP)  # a worker that hangs
        try:
            done = self.tt("find", "w3", status=1)
        finally:
            os.kill(worker, signal.SIGCONT)
        self.assertEqual(done.stdout, "")
        self.assertIn("the worker is silent since", done.stderr)
        self.until_all_are_there()
        self.assertEqual(self.tt("find", "w3").stdout, wanted)
        self.tt("cluster", "stop")
        self.assertEqual(self.tt("find", "w3").stdout, wanted)  # through pipes


@unittest.skipUnless(PYTHON and shutil.which("openssl"), "python3-distributed or openssl isn't installed")
class OverTls(Started):
    """A scheduler and workers of their own, with a certificate."""

    def member(self, *words: str) -> subprocess.Popen[bytes]:
        tls = [f"--tls-{what}={self.folder}/tls/{file}" for what, file in (("ca-file", "ca.pem"), ("cert", "cert.pem"), ("key", "key.pem"))]
        environment = {**os.environ, "PYTHONPATH": str(TOOLS), **{f"DASK_DISTRIBUTED__{it}__HTTP__ROUTES": "[]" for it in ("SCHEDULER", "WORKER")}}
        run = [PYTHON, "-m", *words, *tls, "--no-dashboard", "--dashboard-address", "127.0.0.1:0"]
        member = subprocess.Popen(run, env=environment, stdout=subprocess.DEVNULL, stderr=subprocess.DEVNULL, start_new_session=True)

        def end() -> None:
            try:
                os.killpg(member.pid, signal.SIGTERM)
                member.wait(10)
            except (OSError, subprocess.TimeoutExpired):
                pass
            finally:
                member.kill()
                member.wait()

        self.addCleanup(end)
        return member

    def test_a_cluster_with_a_certificate(self) -> None:
        (self.folder / "tls").mkdir()
        ca, cert, key = (self.folder / "tls" / file for file in ("ca.pem", "cert.pem", "key.pem"))
        make = f"openssl req -x509 -newkey rsa:2048 -nodes -days 2 -subj /CN=tt -keyout {key} -out {cert}"
        subprocess.run(make, shell=True, check=True, capture_output=True)
        shutil.copy(cert, ca)
        with socket.socket() as free:
            free.bind(("127.0.0.1", 0))
            port = free.getsockname()[1]
        address = f"tls://127.0.0.1:{port}"
        scheduler = self.member("distributed.cli.dask_scheduler", "--host", "127.0.0.1", "--port", str(port), "--protocol", "tls")
        for number in range(4):
            more = ["--nthreads", "1", "--host", "127.0.0.1", "--protocol", "tls", "--local-directory", str(self.folder / "space")]
            self.member("distributed.cli.dask_worker", address, "--name", f"worker-{number}", *more)
        self.write_table(copies=True, worker="worker-")
        until = time.monotonic() + 60
        while True:
            started = self.start("--scheduler", address, "--tls", self.folder / "tls")
            if "8 of 8 places" in self.opened or time.monotonic() > until:
                break
            self.tt("cluster", "stop")
        self.assertEqual(self.opened, "4 archives on 4 workers: 8 of 8 places open\n")
        tree = self.tree(40)
        self.tt("import", "folder", tree)
        self.assertEqual(self.journals(), self.by_pipes(tree))
        self.assertEqual(self.copies(), self.journals())
        # The process with the door is killed. The workers forget its programs, which end in order, and another one opens all.
        wanted = self.tt("find", "w3").stdout
        started.kill()
        started.communicate()
        self.assertIn("no cluster is started", self.tt("find", "w3", status=1).stderr)
        self.start("--scheduler", address, "--tls", self.folder / "tls")
        self.assertEqual((self.opened, self.tt("find", "w3").stdout), ("4 archives on 4 workers: 8 of 8 places open\n", wanted))
        # Whoever has no certificate isn't spoken to.
        client = "import sys; from distributed import Client; Client(sys.argv[1], timeout=3)"
        for there in (address, address.replace("tls", "tcp")):
            self.assertNotEqual(subprocess.run([PYTHON, "-c", client, there], capture_output=True).returncode, 0)
        os.killpg(scheduler.pid, signal.SIGKILL)
        until = time.monotonic() + 60
        while (done := self.tt_any("find", "w3"))[0] == 0 and time.monotonic() < until:
            time.sleep(0.2)
        self.assertEqual(done[:2], (1, ""))
        self.assertRegex(done[2], "the scheduler at .* is gone|the worker was killed")

    def tt_any(self, *words: str) -> tuple[int, str, str]:
        done = subprocess.run([sys.executable, str(TOOLS / "tt"), "-C", str(self.archive), *words], capture_output=True, text=True)
        return done.returncode, done.stdout, done.stderr


if __name__ == "__main__":
    unittest.main()
