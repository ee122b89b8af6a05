"""`tt serve` beside other tt: imports while it serves, questions through its door, programs that end, and stops."""

from __future__ import annotations

import http.client
import os
import re
import shlex
import signal
import socket
import subprocess
import sys
import time
import unittest
from pathlib import Path

from support import DAY, TOOLS, ArchiveCase, Version, find_program, needs
from tt_archive_tools.serving.door import address

START = 13_717 * DAY
FAKE = "fake_tt_archive" in os.environ.get("TT_ARCHIVE", "")


class Served(ArchiveCase):
    def setUp(self) -> None:
        super().setUp()
        self.fill([Version(START, "first", "the first text")])

    def serve(self, **environment: str) -> subprocess.Popen[str]:
        """A `tt serve` of its own, once it has loaded."""
        run = [sys.executable, "-S", str(TOOLS / "tt"), "-C", str(self.archive), "serve", "--port", "0"]
        pipe = subprocess.PIPE
        served = subprocess.Popen(run, env={**os.environ, **environment}, stdout=pipe, stderr=pipe, text=True)
        self.addCleanup(self.end, served)
        assert served.stdout
        said = served.stdout.readline()
        self.assertRegex(said, r"^http://127\.0\.0\.1:\d+/\n$")
        self.port = int(said.split(":")[2].rstrip("/\n"))
        return served

    def end(self, served: subprocess.Popen[str], number: int = signal.SIGTERM) -> str:
        if served.poll() is None:
            served.send_signal(number)
        return served.communicate(timeout=30)[1]

    def find(self, query: str) -> tuple[int, list[str]]:
        """A page's status, and the names on it."""
        connection = http.client.HTTPConnection("127.0.0.1", self.port, timeout=60)
        connection.request("GET", f"/find?q={query}")
        reply = connection.getresponse()
        text = reply.read().decode()
        connection.close()
        return reply.status, re.findall(r'class="name" href="[^"]*"><bdi>([^<]*)', text) if reply.status == 200 else [text]

    def found(self, query: str, count: int) -> list[str]:
        """The names on a page, once there are so many."""
        end = time.monotonic() + 30
        while True:
            status, names = self.find(query)
            if status == 200 and len(names) >= count or time.monotonic() > end:
                return sorted(names)
            time.sleep(0.05)

    def tree(self, name: str, start: int, count: int, apart: int = 1) -> Path:
        for index in range(count):
            file = self.folder / name / f"{name}{index}.txt"
            file.parent.mkdir(exist_ok=True)
            file.write_text(f"{name} text {index}")
            os.utime(file, (start + index * apart, start + index * apart))
        return self.folder / name

    def late(self, seconds: float) -> str:
        return f"sh -c '{{ sleep {seconds}; cat; }} | {shlex.join(find_program(None))}'"

    def start(self, *words: object, **environment: str) -> subprocess.Popen[str]:
        run = [sys.executable, str(TOOLS / "tt"), "-C", str(self.archive), *map(str, words)]
        pipe = subprocess.PIPE
        started = subprocess.Popen(run, env={**os.environ, **environment}, stdout=pipe, stderr=pipe, text=True)
        self.addCleanup(lambda: started.communicate() if started.stdout and not started.stdout.closed else None)
        return started

    def program(self) -> int:
        """The process of the program that is served."""
        [process] = re.findall(r"^(\d+)\t\S+\tthe program of", (self.archive / ".tt.lock").read_text(), re.M)
        return int(process)


class Turns(Served):
    def test_an_import_while_it_is_served(self) -> None:
        self.serve()
        self.assertEqual(self.find("text"), (200, ["first"]))
        done = self.tt("import", "folder", self.tree("one", START + 10, 3))
        self.assertEqual(done.stdout, "3 versions and 0 deletions are in the archive\n")
        self.assertEqual(self.found("text", 4), ["first", "one0.txt", "one1.txt", "one2.txt"])
        self.tt("plan", "text", "guarantee", "3/2")
        self.tree("one", START + 10, 5)
        self.tt("refresh")
        self.assertEqual(len(self.found("text", 6)), 6)

    def test_two_imports_at_once(self) -> None:
        self.serve()
        trees = [self.tree("one", START + 10, 3, 0), self.tree("two", START + 10, 3, 0)]
        for done in [self.start("--wait", "60s", "import", "folder", tree) for tree in trees]:
            self.assertEqual(done.communicate(timeout=60)[0], "3 versions and 0 deletions are in the archive\n")
        self.assertEqual(len(self.found("text", 7)), 7)

    @needs("shares")
    def test_a_log_is_asked_in_a_run_of_its_own(self) -> None:
        self.fill([Version(START + 5, "second", "the second text")])
        self.serve()
        for _ in range(3):
            self.tt("find", "text", "--at", f"@{START + 1}")  # through the door, and so in the run of the server
        log = self.folder / "asked.log"
        log.write_text(f"find {START + 1} text\n")
        self.assertEqual(self.tt("share", log, "--tsv").stdout, "text\t1\t1\t1\t1\t1\t1\n")
        self.assertEqual(self.found("text", 2), ["first", "second"])
        with socket.socket(socket.AF_UNIX) as door, address(self.archive / ".tt.cluster") as path:
            door.bind(path)
            door.listen()
            self.assertRegex(self.tt("share", log, status=1).stderr, r"a `tt cluster` has this archive, and what it was asked by others counts, too: `tt -C ")

    def test_an_import_that_is_killed(self) -> None:
        served = self.serve()
        tree = self.tree("one", START + 10, 3)
        killed = self.start("import", "folder", tree, TT_ARCHIVE=self.late(2))
        end = time.monotonic() + 30
        while "import" not in (self.archive / ".tt.lock").read_text() and time.monotonic() < end:
            time.sleep(0.05)
        self.assertIn("import", (self.archive / ".tt.lock").read_text())
        killed.kill()
        killed.communicate()
        self.assertIn("first", self.found("text", 1))
        self.tt("import", "folder", tree)
        self.assertEqual(len(self.found("text", 4)), 4)
        self.assertEqual(self.end(served), "")

    def test_pages_wait_for_a_short_import_and_say_what_a_long_one_is(self) -> None:
        self.serve()
        self.start("import", "folder", self.tree("one", START + 10, 1), TT_ARCHIVE=self.late(12))
        end = time.monotonic() + 30
        while "import" not in (self.archive / ".tt.lock").read_text() and time.monotonic() < end:
            time.sleep(0.05)
        status, [text] = self.find("text")
        self.assertEqual(status, 503)
        self.assertRegex(text, r"another tt is at work in .*: `tt -C .* import folder .*`, process \d+, since")
        self.assertEqual(len(self.found("text", 2)), 2)


class Doors(Served):
    def test_questions_come_in(self) -> None:
        self.fill([Version(START + DAY, "second", "text of the second"), Version(START + 2 * DAY, "second", None)])
        asked = [
            ("find", "text or second", "--at", "2007-07-24"), ("find", "text", "--snippets"), ("between", "text"), ("show", "first"), ("status",), ("verify",),
            ("timeline", "text", "-o", self.folder / "a.svg", "--html", self.folder / "a.html"),
        ]  # fmt: skip
        alone = [self.tt("--wait", 0, *words).stdout for words in asked]
        self.serve()
        self.assertEqual([self.tt("--wait", 0, *words).stdout for words in asked], alone)
        self.assertIn("a word is missing here", self.tt("find", "text and", status=1).stderr)
        self.assertIn("second has no text now", self.tt("show", "second", status=1).stderr)
        self.assertEqual((self.archive / ".tt.socket").stat().st_mode & 0o777, 0o600)
        tree = self.tree("one", START + 3 * DAY, 2)
        self.assertIn("2 versions and 0 deletions would be taken", self.tt("--wait", 0, "import", "folder", "--dry-run", tree).stdout)

    @needs("propose")
    def test_pictures_come_in(self) -> None:
        self.fill([Version(START + DAY * k, f"doc{k % 3}", f"text {'word ' * (k % 4)}") for k in range(1, 20)])
        self.serve()
        self.assertEqual(self.tt("--wait", 0, "tradeoff", "word", "-o", self.folder / "b.svg").stdout, f"{self.folder / 'b.svg'}\n")

    def test_nothing_is_changed_through_it(self) -> None:
        self.serve()
        for line in (b"arrive 1 2000000000 1\na\n", b"delete 1 2000000000\n", b"plan text guarantee 1/1\n", b"what\n", b"find" + b" a" * 4_000 + b"\n"):
            with socket.socket(socket.AF_UNIX) as visitor, address(self.archive / ".tt.socket") as path:
                visitor.connect(path)
                visitor.sendall(b"side 0\n" + line)
                visitor.settimeout(10)
                self.assertEqual(visitor.recv(7), b"failed ", line)
        self.assertEqual(self.tt("status").stdout.splitlines()[1], "entries    1 version, 0 deletions, 0 plans")

    def test_shards_and_long_paths(self) -> None:
        into = self.folder / ("a" * 80) / ("b" * 80)
        into.parent.mkdir()
        self.fill([Version(START + DAY * k, f"doc{k}", f"word {k}") for k in range(1, 8)])
        self.tt("shard", "3", into)
        self.archive = into
        alone = self.tt("find", "word or text").stdout
        self.serve()
        self.assertEqual(self.tt("--wait", 0, "find", "word or text").stdout, alone)
        self.assertEqual(len(self.find("word")[1]), 7)
        self.assertEqual(self.tt("--wait", 0, "show", "doc5").stdout, "word 5\n")


class Faults(Served):
    def test_a_program_that_ends_is_started_again(self) -> None:
        served = self.serve()
        os.kill(self.program(), signal.SIGKILL)
        status, [text] = self.find("text")
        self.assertEqual(status, 503)
        self.assertRegex(text, "status -9|signal 9")
        self.assertEqual(self.find("text"), (200, ["first"]))
        os.kill(self.program(), signal.SIGKILL)
        self.assertRegex(self.tt("find", "text", status=1).stderr, "status -9|signal 9")
        self.assertIn("first", self.tt("find", "text").stdout)
        served.send_signal(signal.SIGTERM)

    @unittest.skipIf(FAKE, "the stand-in keeps no sublists in Pages")
    @needs("sublists")
    def test_damage(self) -> None:
        self.fill([Version(START + DAY * k, f"doc{k % 3}", f"text {k % 2}") for k in range(1, 9)])
        self.tt("plan", "text", "guarantee", "3/2")
        pages = self.archive / "archive.pages"
        pages.write_bytes(bytes(byte ^ 1 if at % 4_096 == 3 else byte for at, byte in enumerate(pages.read_bytes())))
        self.serve()
        for _ in range(2):
            status, [text] = self.find("text&at=2007-07-25")
            self.assertEqual(status, 503)
            self.assertIn("`tt plan text guarantee 3/2` stores its sublists anew", text)
        self.assertIn("stores its sublists anew", self.tt("find", "text", "--at", "2007-07-25", status=1).stderr)
        self.tt("plan", "text", "guarantee", "3/2")
        self.assertEqual(self.find("text&at=2007-07-25")[0], 200)

    def test_how_it_ends(self) -> None:
        for number in (signal.SIGTERM, signal.SIGINT, signal.SIGHUP):
            served = self.serve()
            self.assertEqual(self.end(served, number), "")
            self.assertEqual(served.returncode, 0)
            self.assertFalse((self.archive / ".tt.socket").exists())
            self.tt("--wait", 0, "find", "text")
        served = self.serve()
        self.end(served, signal.SIGKILL)
        self.assertTrue((self.archive / ".tt.socket").exists())
        self.tt("find", "text")
        self.serve()
        self.tt("--wait", 0, "find", "text")

    def test_words_that_are_wrong(self) -> None:
        self.serve()
        said = self.tt("--wait", 0, "serve", "--port", 0, status=1).stderr
        self.assertRegex(said, "another tt is at work in .*: `tt -C .* serve --port 0`, process")
        self.assertIn(f"port {self.port} can't be served: Address already in use", self.tt("serve", "--port", self.port, status=1).stderr)
        self.assertIn("port 99999 can't be served", self.tt("serve", "--port", 99_999, status=1).stderr)
        self.assertIn("can't be served", self.tt("serve", "--bind", "no such host", status=1).stderr)
        said = self.tt("--wait", 0, "serve", "--bind", "0.0.0.0", "--port", 0, status=1).stderr
        self.assertIn("whoever reaches 0.0.0.0 can read all texts of the archive", said)
