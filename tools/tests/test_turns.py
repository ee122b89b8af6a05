"""One program in a folder: a tt that is stopped or killed while its program works on, and the next one at once."""

from __future__ import annotations

import os
import re
import shlex
import signal
import subprocess
import sys
import time
import unittest
from pathlib import Path

from support import DAY, TOOLS, ArchiveCase, Version, find_program
from tt_archive_tools.journal import summary
from tt_archive_tools.program import Shard
from tt_archive_tools.times import parse_wait

START = 13_717 * DAY
FAKE = "fake_tt_archive" in os.environ.get("TT_ARCHIVE", "")
#: The stand-in is tried without its own lock, too, so that the tools' lock alone is seen to be enough.
WAYS: list[dict[str, str]] = [{}, {"FAKE_WITHOUT": "lock"}] if FAKE else [{}]


class OneProgram(ArchiveCase):
    def setUp(self) -> None:
        super().setUp()
        self.fill([Version(START, "first", "the first text")])

    def late(self, seconds: int) -> str:
        """The program, which gets its input late, as after a long load."""
        return f"sh -c '{{ sleep {seconds}; cat; }} | {shlex.join(find_program(None))}'"

    def tree(self, name: str, start: int, count: int) -> Path:
        """Files that change a second apart from `start` on."""
        for index in range(count):
            file = self.folder / name / f"{name}{index}.txt"
            file.parent.mkdir(exist_ok=True)
            file.write_text(f"{name} text {index}")
            os.utime(file, (start + index, start + index))
        return self.folder / name

    def start(self, *words: object, **environment: str) -> subprocess.Popen[str]:
        """A tt of its own, once it has the folder."""
        run = [sys.executable, str(TOOLS / "tt"), "-C", str(self.archive), *map(str, words)]
        pipe = subprocess.PIPE
        tt = subprocess.Popen(run, env={**os.environ, **environment}, stdout=pipe, stderr=pipe, text=True)
        self.addCleanup(tt.communicate)
        self.until(lambda: "the program of" in (self.archive / ".tt.lock").read_text())
        return tt

    def until(self, holds: object) -> None:
        end = time.monotonic() + 30
        while not holds() and time.monotonic() < end:  # type: ignore[operator]
            time.sleep(0.01)

    def renew(self) -> None:
        for file in self.archive.iterdir():
            file.unlink()
        self.tt("init", self.archive)
        self.fill([Version(START, "first", "the first text")])

    def test_after_a_signal_nothing_acknowledged_is_missing(self) -> None:
        one, two = self.tree("one", START + 10, 3), self.tree("two", START + 100, 50)
        wanted = {f"two{index}.txt": f"two text {index}" for index in range(50)}
        for number, environment in ((n, e) for n in (signal.SIGTERM, signal.SIGHUP, signal.SIGKILL) for e in WAYS):
            with self.subTest(number, **environment):
                self.renew()
                late = self.late(3 if number == signal.SIGKILL else 1)
                tt = self.start("import", "folder", one, TT_ARCHIVE=late, **environment)
                tt.send_signal(number)
                if number == signal.SIGKILL:
                    tt.wait()  # its program has the folder now
                    self.assertIn("another tt is at work", self.tt("--wait", 0, "status", status=1).stderr)
                done = self.tt("--wait", "60s", "import", "folder", two, **environment)
                self.assertEqual(done.stdout, "50 versions and 0 deletions are in the archive\n")
                [texts] = self.texts_at(START + DAY)
                self.assertEqual({name: texts.get(name) for name in wanted}, wanted)
                self.assertEqual(texts["first"], "the first text")
                self.assertEqual(summary([Shard(self.archive)]).arrivals, len(texts))

    def test_signals_end_it_in_order(self) -> None:
        tree = self.tree("one", START + 10, 3)
        for number, status in ((signal.SIGINT, 130), (signal.SIGTERM, 143), (signal.SIGHUP, 129)):
            with self.subTest(number):
                tt = self.start("import", "folder", tree, TT_ARCHIVE=self.late(1))
                tt.send_signal(number)
                _, said = tt.communicate()
                self.assertEqual((tt.returncode, said[:12]), (status, "tt: stopped;"), said)
                # The program was waited for, and so the folder is free.
                self.tt("--wait", 0, "status")

    def test_what_whoever_started_it_ignores_does_not_stop_it(self) -> None:
        tree = self.tree("one", START + 10, 3)
        nohup = ["nohup", sys.executable, str(TOOLS / "tt"), "-C", str(self.archive), "import", "folder", str(tree)]
        environment = {**os.environ, "TT_ARCHIVE": self.late(1)}
        with subprocess.Popen(nohup, env=environment, stdout=subprocess.PIPE, stderr=subprocess.PIPE, text=True) as tt:
            self.until(lambda: "the program of" in (self.archive / ".tt.lock").read_text())
            tt.send_signal(signal.SIGHUP)
            self.assertIn("3 versions and 0 deletions", tt.communicate()[0])

    def test_what_is_at_work_is_named(self) -> None:
        tree = self.tree("one", START + 10, 3)
        tt = self.start("import", "folder", tree, TT_ARCHIVE=self.late(3))
        since = r"since \d{4}-\d\d-\d\dT\d\d:\d\d:\d\dZ"
        command = f"`tt -C {self.archive} import folder {tree}`"
        said = self.tt("--wait", 0, "find", "text", status=1).stderr
        self.assertRegex(said, f"^tt: another tt is at work in {self.archive}: {command}, process {tt.pid}, {since}\n$")
        tt.kill()
        tt.wait()
        said = self.tt("--wait", "0s", "find", "text", status=1).stderr
        found = re.match(f"^tt: another tt is at work in {self.archive}: the program of {command}, process (\\d+), {since}\n$", said)
        self.assertTrue(found, said)
        os.kill(int(found[1]), 0)  # type: ignore[index]
        self.tt("find", "text")
        self.assertEqual((self.archive / ".tt.lock").read_text(), "")

    def test_it_waits_as_long_as_it_may(self) -> None:
        with self.open():
            began = time.monotonic()
            self.tt("--wait", "0.5", "status", status=1)
            self.assertTrue(0.5 <= time.monotonic() - began < 5)
        self.start("find", "text", TT_ARCHIVE=self.late(1))
        self.assertIn("the archive\n", self.tt("import", "folder", self.tree("two", START + 20, 2)).stdout)
        self.assertEqual([parse_wait(text) for text in ("60s", "5m", "1h", "7")], [60, 300, 3_600, 7])
        self.assertIn("'soon' is no length of time", self.tt("--wait", "soon", "status", status=1).stderr)

    def test_a_program_that_no_tt_started(self) -> None:
        """It has the lock of the journal: tt's program ends with status 11, and is started again for as long as tt may wait."""
        marks = self.folder / "marks"
        busy = f"[ $(wc -l <{marks}) -lt 3 ] && echo tt_archive: another program is at work in this folder >&2 && exit 11"
        program = f"sh -c 'echo >>{marks}; {busy}; exec {shlex.join(find_program(None))}'"
        said = self.tt("--wait", 0, "status", status=1, TT_ARCHIVE=program).stderr
        self.assertEqual(said, f"tt: another program is at work in {self.archive}, which no tt of this folder started\n")
        marks.unlink()
        self.assertIn("documents  1", self.tt("status", TT_ARCHIVE=program).stdout)
        self.assertEqual(marks.read_text(), "\n" * 3)

    @unittest.skipUnless(FAKE, "the stand-in locks; whether the program does is its own tests' matter")
    def test_a_program_by_hand(self) -> None:
        with subprocess.Popen(find_program(None), cwd=self.archive, stdin=subprocess.PIPE, stdout=subprocess.PIPE) as program:
            assert program.stdin and program.stdout
            program.stdin.write(b"show 1 0\n")
            program.stdin.flush()
            program.stdout.readline()
            self.assertIn("another program is at work in", self.tt("--wait", "0.2", "find", "text", status=1).stderr)
            program.stdin.close()
        self.assertIn("1 document", self.tt("find", "text").stdout)
