"""Archives that follow another one: the packets, `tt follow` beside all that may be at work or stop, and histories that went apart."""

from __future__ import annotations

import os
import shlex
import shutil
import signal
import subprocess
import sys
import time
import unittest
from pathlib import Path
from tempfile import TemporaryDirectory
from unittest import mock

from support import DAY, TOOLS, ArchiveCase, Done, Version, find_program, needs, sample
from test_serving_turns import START, Served
from tt_archive_tools import commands
from tt_archive_tools.journal import reach

FAKE = "fake_tt_archive" in os.environ.get("TT_ARCHIVE", "")
#: Three segments are planned of two documents with one word.
PLANNED = b"arrive 1 10 1\nv\narrive 2 20 1\nv\ndelete 2 30\ndelete 1 40\nplan v guarantee 1/1\n"
OTHER = b"arrive 7 10 5\nred a\n"
FILES = ("archive.journal", "archive.pages", "names.tsv", "imports.tsv")
TABLES = FILES[2:]
#: Shows what a program shows, and rests for some seconds in the middle.
SLOW = """
import subprocess, sys, time
size, *words = sys.argv[1:]
shown = subprocess.run(words, stdout=subprocess.PIPE).stdout
sys.stdout.buffer.write(shown[: int(size)])
sys.stdout.flush()
time.sleep(5)
sys.stdout.buffer.write(shown[int(size) :])
"""


def run(folder: Path, *words: str, given: bytes = b"") -> tuple[int, bytes, str]:
    """The status of the program, what it shows, and its line."""
    folder.mkdir(exist_ok=True)
    done = subprocess.run([*find_program(None), *words], cwd=folder, input=given, capture_output=True)
    return done.returncode, done.stdout, done.stderr.decode()


def packet(number: int, body: bytes) -> bytes:
    return number.to_bytes(8, "big") + len(body).to_bytes(4, "big") + body


def arrival(doc: int, at: int, text: bytes) -> bytes:
    return b"\1" + doc.to_bytes(4, "big") + at.to_bytes(8, "big") + text


def content(folder: Path) -> list[bytes | None]:
    return [(folder / name).read_bytes() if (folder / name).exists() else None for name in FILES]


@needs("follow")
class Packets(unittest.TestCase):
    """The program: what it exports and takes."""

    def setUp(self) -> None:
        held = TemporaryDirectory()
        self.addCleanup(held.cleanup)
        self.folder = Path(held.name)
        run(self.folder / "leader", given=PLANNED)
        self.packets = run(self.folder / "leader", "--export", "1")[1]

    def assert_followed(self, folder: str, given: bytes, shown: str, status: int = 0, line: str = "") -> None:
        wanted = "".join(f"{each}\n" for each in shown.split(" / ") if each)
        self.assertEqual(run(self.folder / folder, "--follow", given=given), (status, wanted.encode(), line and f"tt_archive: {line}\n"))

    def test_an_export(self) -> None:
        leader = self.folder / "leader"
        before = content(leader)
        self.assertEqual([len(run(leader, "--export", number)[1]) for number in ("1", "5", "6", "9999999999999999999")], [295, 193, 0, 0])
        self.assertEqual(run(leader, "--export=0005"), (0, self.packets[102:], ""))
        self.assertEqual(self.packets[:26], packet(1, arrival(1, 10, b"v")))
        self.assertEqual(content(leader), before)
        for words in (["--export"], ["--export", "0"], ["--export", "x"], ["--export", "1" * 20], ["--follow", "1"], ["--follow", "--export", "1"]):
            status, shown, line = run(self.folder / "none", *words)
            self.assertEqual((status, shown, line[:18]), (2, b"", "tt_archive: usage:"), words)
        self.assertEqual(content(self.folder / "none"), [None] * 4)

    def test_what_is_taken(self) -> None:
        self.assert_followed("one", self.packets, "took 1 / took 2 / took 3 / took 4 / took 5 / end 5")
        self.assertEqual(content(self.folder / "one"), content(self.folder / "leader"))
        self.assert_followed("one", self.packets, "had 1 / had 2 / had 3 / had 4 / had 5 / end 5")
        self.assert_followed("one", b"", "end 5")
        self.assertEqual(content(self.folder / "one"), content(self.folder / "leader"))
        self.assert_followed("two", self.packets[:52] + self.packets[26:102], "took 1 / took 2 / had 2 / took 3 / took 4 / end 4")

    def test_gaps_and_conflicts(self) -> None:
        self.assert_followed("new", self.packets[52:], "", 13, "have 0 entries, got number 3")
        self.assert_followed("new", self.packets[:26] + self.packets[52:], "took 1", 13, "have 1 entries, got number 3")
        run(self.folder / "other", given=OTHER)
        self.assert_followed("other", self.packets, "", 14, "entry 1 differs at byte 4")
        red = arrival(7, 10, b"red a")
        for body, place in ((red[:-1], 17), (red + b"b", 18), (red[:13] + b"rad a", 14), (b"", 0)):
            self.assert_followed("other", packet(1, body), "", 14, f"entry 1 differs at byte {place}")
        self.assert_followed("other", packet(1, red), "had 1 / end 1")

    def test_what_cannot_be_taken(self) -> None:
        self.assert_followed("cut", self.packets[:-1], "took 1 / took 2 / took 3 / took 4", 15, "bad packet at byte 102")
        two = packet(1, b"\5\0\2") + packet(2, arrival(1, 10, b"v"))
        for size in range(len(two)):
            folder = f"size-{size}"
            if size in (0, 15):
                self.assert_followed(folder, two[:size], "took 1 / end 1" if size else "end 0")
            elif size % 7 == 1:
                self.assert_followed(folder, two[:size], "took 1" if size > 15 else "", 15, f"bad packet at byte {15 if size > 15 else 0}")
        last = self.packets[114:]  # the plan: behind its head its first cut, place and digest
        bad = [
            packet(0, b"")[:8], packet(1, b"")[:8] + b"\4\0\0\1", packet(6, b""), packet(6, b"\6"), packet(6, arrival(3, 39, b"v")),
            packet(6, b"\5\0\3"), packet(6, arrival(1, 40, b"v")), packet(6, arrival(3, 40, b"\xff")), packet(6, b"\2\0\0\0\3" + bytes(7) + b"\50"),
            packet(6, b"\4\0\0\0\1\0\0\0\16" + arrival(3, 50, b"v")), packet(6, last[:-1]), packet(6, last + b"\0"), packet(6, last[:27] + b"\x14" + last[28:]),
        ]  # fmt: skip
        for case, given in enumerate(bad):
            with self.subTest(case):
                shown = "had 5" if given[:8] != packet(1, b"")[:8] else ""
                at = 193 if shown else 0
                self.assert_followed("leader", self.packets[102:] * bool(shown) + given, shown, 15, f"bad packet at byte {at}")

    def test_plans_are_what_their_kinds_promise(self) -> None:
        """One that keeps its factor and isn't least, and one that costs more than the best in its space."""
        for form, worse in ((b"guarantee 2/1", b"guarantee 1/1"), (b"space 2/1 uniform", b"space 1/1 uniform")):
            folders = [self.folder / f"{name} {form.decode().replace('/', '-')}" for name in ("good", "worse", "new")]
            for folder, plan in zip(folders, (form, worse)):
                run(folder, given=PLANNED.replace(b"guarantee 1/1", plan))
            good, other = (run(folder, "--export", "5")[1] for folder in folders[:2])
            # The worse plan's cuts and places, with the factor of the other.
            swapped = other[:15] + good[15:23] + other[23:]
            run(folders[2], "--follow", given=self.packets[:102])
            shown = run(folders[2], "--follow", given=swapped)
            self.assertEqual(shown, (15, b"", "tt_archive: bad packet at byte 0\n"), form)
            self.assertEqual(run(folders[2], "--follow", given=good), (0, b"took 5\nend 5\n", ""), form)

    def test_each_is_shown_once_it_is_taken(self) -> None:
        program = subprocess.Popen([*find_program(None), "--follow"], cwd=self.folder, stdin=subprocess.PIPE, stdout=subprocess.PIPE)
        assert program.stdin and program.stdout
        for at in range(26):
            program.stdin.write(self.packets[at : at + 1])
            program.stdin.flush()
        self.assertEqual(program.stdout.readline(), b"took 1\n")
        program.communicate()


class Followed(ArchiveCase):
    """A leader, which is the test's archive, and a replica of it."""

    def setUp(self) -> None:
        super().setUp()
        self.replica = self.folder / "replica"

    def here(self, *words: object, status: int = 0, **environment: str) -> Done:
        """Runs `tt` on the replica."""
        with mock.patch.object(self, "archive", self.replica):
            return self.tt(*words, status=status, **environment)

    def follow(self, *words: object, status: int = 0, **environment: str) -> Done:
        return self.here("follow", self.archive, *words, status=status, **environment)

    def start(self, *words: object, **environment: str) -> subprocess.Popen[str]:
        run = [sys.executable, "-S", str(TOOLS / "tt"), "-C", str(self.replica), *map(str, words)]
        pipe = subprocess.PIPE
        started = subprocess.Popen(run, env={**os.environ, **environment}, stdout=pipe, stderr=pipe, text=True)
        self.addCleanup(lambda: started.poll() is None and started.kill())
        return started

    def until(self, holds: object) -> None:
        end = time.monotonic() + 60
        while not holds() and time.monotonic() < end:  # type: ignore[operator]
            time.sleep(0.02)

    def program(self, export: str = "", follow: str = "") -> str:
        """The program, but what follows or is exported is done by a shell. `$real` is the program."""
        file = self.folder / "program"
        real = shlex.join(find_program(None))
        cases = "".join(f"--{name}) {then};;\n" for name, then in (("export", export), ("follow", follow)) if then)
        file.write_text(f"#!/bin/sh\nreal() {{ {real} \"$@\"; }}\ncase $1 in\n{cases}*) exec {real} \"$@\";;\nesac\n")
        file.chmod(0o755)
        return str(file)

    def tree(self, start: int, count: int) -> Path:
        for index in range(count):
            file = self.folder / "tree" / f"{start + index}.txt"
            file.parent.mkdir(exist_ok=True)
            file.write_text(f"text {start + index} w{index % 5}")
            os.utime(file, (START + start + index, START + start + index))
        return self.folder / "tree"

    def assert_same(self) -> None:
        self.assertEqual(content(self.replica), content(self.archive))

    def entries(self, folder: Path) -> int:
        return int(run(folder, "--follow")[1].split()[1])


@needs("follow")
class Follows(Followed):
    @needs("batches", "plans", "space")
    def test_all_that_it_lacks(self) -> None:
        self.tt("import", "folder", self.tree(0, 40))
        self.tt("plan", "text", "guarantee", "3/2")
        self.tt("plan", "w1", "space", "2", "uniform")
        count = self.entries(self.archive)
        self.assertEqual(self.follow().stdout, f"{count} entries behind, and took them; has {count}, until 2007-07-23T00:00:39Z\n")
        self.assert_same()
        self.assertEqual(self.follow().stdout, f"0 entries behind; has {count}, until 2007-07-23T00:00:39Z\n")
        self.tt("plan", "w2", "space", "2", "since", "2007-07-23")
        self.assertEqual(self.follow().stdout, f"1 entry behind, and took it; has {count + 1}, until 2007-07-23T00:00:39Z\n")
        self.tt("import", "folder", self.tree(40, 3))
        self.assertEqual(self.here("-q", "follow", self.archive), Done("", ""))
        self.assert_same()
        for words in (("find", "w1 and text"), ("show", "3.txt"), ("status",), ("log", "41.txt"), ("verify",)):
            self.assertEqual(self.here(*words).stdout, self.tt(*words).stdout)
        # The replica is followed in its turn, and then takes the leader's place.
        leader, self.archive, self.replica = self.archive, self.replica, self.folder / "third"
        self.follow()
        self.assert_same()
        self.assertIn("3 versions and 0 deletions are in the archive\n", self.tt("import", "folder", self.tree(43, 3)).stdout)
        self.follow()
        self.assert_same()
        self.replica, self.archive = self.archive, leader
        self.assertIn("has no entry", self.follow(status=1).stderr)

    def test_the_last_entry_is_told(self) -> None:
        self.follow()
        self.fill([Version(START, "first", "a text"), Version(START + DAY, "first", None)])
        self.follow()
        count = self.entries(self.archive)
        for done in (self.tt("status", self.replica), self.here("status")):
            self.assertIn(f"last       entry {count}, of 2007-07-24\n", done.stdout)
        self.tt("init", self.folder / "plain", "--format", 1)
        self.assertNotIn("last ", self.tt("status", self.folder / "plain").stdout)
        self.assertIn("there is no folder", self.tt("status", self.folder / "none", status=1).stderr)

    def test_nothing_is_written_at_the_leader(self) -> None:
        self.fill(sample(3, 9, 60))
        before = content(self.archive)
        self.follow()
        self.assertEqual(content(self.archive), before)
        self.assertEqual({file.name for file in self.archive.iterdir()} - {*FILES}, {".tt.lock", ".tt.turn"})
        self.assertEqual((self.archive / ".tt.lock").read_text(), "")

    def test_it_goes_on(self) -> None:
        self.fill([Version(START, "first", "a text")])
        started = self.start("follow", self.archive, "--every", "1s")
        assert started.stdout
        self.assertIn("behind, and took them; has 2", started.stdout.readline())
        for day in (1, 2):
            self.fill([Version(START + day * DAY, "first", f"text {day}")])
            self.assertEqual(started.stdout.readline(), f"1 entry behind, and took it; has {day + 2}, until 2007-07-{day + 23}\n")
        started.send_signal(signal.SIGTERM)
        self.assertEqual((started.communicate()[1], started.returncode), ("", 0))
        self.assert_same()

    def test_words_and_folders(self) -> None:
        self.assertIn("is a folder, or `ssh`, a host", self.here("follow", "a", "b", status=1).stderr)
        self.assertIn("is a folder, or `ssh`, a host", self.here("follow", "--", "ssh", "-v", "b", status=1).stderr)
        self.assertIn("between two exports is 1s at least", self.follow("--every", "0", status=1).stderr)
        self.assertIn("can't follow itself", self.here("follow", self.replica, status=1).stderr)
        self.assertIn(f"tt: there is no folder {self.folder}/none\n", self.here("follow", self.folder / "none", status=1).stderr)
        shutil.rmtree(self.replica)
        self.replica.mkdir()
        (self.replica / "own.txt").touch()
        self.assertIn("has no archive", self.follow(status=1).stderr)
        self.assertEqual([file.name for file in self.replica.iterdir()], ["own.txt"])
        (self.replica / "own.txt").unlink()
        self.follow()
        self.assert_same()
        self.fill([Version(START, "first", "a text")])
        for folder in (self.archive, self.replica):
            (folder / "shard-0").mkdir()
            (folder / "shards.tsv").write_text("shard-0\n")
            self.assertIn("is split: `tt follow` is for one archive", self.follow(status=1).stderr)
            (folder / "shards.tsv").unlink()
        self.follow()
        for folder in (self.archive, self.replica):
            (folder / "archive.journal").rename(self.folder / "kept")
            self.assertIn(f"{folder}/archive.journal is gone", self.follow(status=1).stderr)
            self.assertFalse((folder / "archive.journal").exists())
            (self.folder / "kept").rename(folder / "archive.journal")

    @unittest.skipUnless(FAKE, "the stand-in alone plays a program from before")
    def test_programs_that_do_not_know_it(self) -> None:
        self.assertIn("doesn't answer `--export` yet", self.follow(status=1, FAKE_WITHOUT="--export").stderr)
        self.assertIn("doesn't answer `--follow` yet", self.follow(status=1, FAKE_WITHOUT="--follow").stderr)


@needs("follow")
class AtWork(Followed):
    """A leader or a replica that is in use."""

    def setUp(self) -> None:
        super().setUp()
        self.fill([Version(START, "first", "a text")])

    def test_a_leader_at_work_is_waited_for(self) -> None:
        with self.open():
            said = self.here("--wait", 0, "follow", self.archive, status=1).stderr
            self.assertEqual(said, f"tt: another tt is at work in {self.archive}: tt, process {os.getpid()}, since {said[-21:]}")
            self.assertEqual(content(self.replica)[0], None)
            started = self.start("--wait", "0.1", "follow", self.archive, "--every", "1s")
            assert started.stderr and started.stdout
            self.assertIn("another tt is at work in", started.stderr.readline())
            time.sleep(3)  # it is told once
        self.assertIn("took them; has 2", started.stdout.readline())
        started.terminate()
        self.assertEqual(started.communicate(), ("", ""))
        with self.open():
            waiting = self.start("--wait", "60s", "follow", self.archive)
            time.sleep(1)
        self.assertEqual(waiting.communicate()[1], "")
        self.assertEqual(waiting.returncode, 0)

    def test_a_program_that_no_tt_started(self) -> None:
        marks = self.folder / "marks"
        busy = "echo tt_archive: another program is at work in this folder >&2; exit 11"
        program = self.program(export=f"echo >>{marks}; [ $(wc -l <{marks}) -lt 3 ] && {{ {busy}; }}; real \"$@\"")
        said = self.here("--wait", 0, "follow", self.archive, status=1, TT_ARCHIVE=program).stderr
        self.assertEqual(said, f"tt: took 0 of 2 entries; another program is at work in {self.archive}, which no tt of this folder started\n")
        marks.unlink()
        self.follow(TT_ARCHIVE=program)
        self.assert_same()

    def test_a_replica_at_work_is_waited_for_before_the_leader_is_held(self) -> None:
        self.follow()
        self.fill([Version(START + DAY, "first", "more text")])
        (self.archive / ".tt.turn").unlink()
        with self.open(self.replica):
            self.assertIn(f"at work in {self.replica}", self.here("--wait", 0, "follow", self.archive, status=1).stderr)
        self.assertFalse((self.archive / ".tt.turn").exists())
        self.follow()
        self.assert_same()

    def test_two_at_once(self) -> None:
        for done in [self.start("--wait", "60s", "follow", self.archive) for _ in range(2)]:
            self.assertEqual(done.communicate()[1], "")
        self.assert_same()


@needs("follow")
class Stops(Followed):
    """A side that ends in the middle: what was taken stays, and the next time goes on from there."""

    def setUp(self) -> None:
        super().setUp()
        self.fill(sample(7, 5, 30))
        self.size = len(run(self.archive, "--export", "1")[1])

    def assert_goes_on(self, least: int = 0) -> None:
        held = self.entries(self.replica)
        self.assertTrue(least <= held < self.entries(self.archive))
        journals = [(folder / "archive.journal").read_bytes()[: reach(self.replica).gate] for folder in (self.archive, self.replica)]
        self.assertEqual(*journals)
        done = self.follow()
        self.assertRegex(done.stdout, rf"^{self.entries(self.archive) - held} entr(y|ies) behind, and took (it|them); has ")
        self.assert_same()
        shutil.rmtree(self.replica)

    def test_a_leader_that_ends(self) -> None:
        for size in (0, 1, 11, 20, self.size // 2, self.size // 2 + 1, self.size - 1):
            with self.subTest(size):
                program = self.program(export=f'real "$@" | head -c {size}; kill -9 $$')
                said = self.follow(status=1, TT_ARCHIVE=program).stderr
                self.assertRegex(said, r"^tt: took \d+ of 31 entries; \S+/archive: tt_archive was killed \(signal 9, SIGKILL\)")
                self.assert_goes_on()

    def test_a_replica_that_ends(self) -> None:
        for size in (0, self.size // 2):
            with self.subTest(size):
                program = self.program(follow=f'head -c {size} | real "$@"; kill -9 $$')
                said = self.follow(status=1, TT_ARCHIVE=program).stderr
                self.assertRegex(said, r"^tt: took \d+ of 31 entries; \S+/replica: tt_archive was killed \(signal 9, SIGKILL\)")
                self.assert_goes_on()

    def test_a_full_disk(self) -> None:
        program = self.program(follow=f'head -c {self.size // 2} | real "$@" 2>/dev/null; echo tt_archive: disk fault >&2; exit 4')
        started = self.start("follow", self.archive, "--every", "1s", TT_ARCHIVE=program)
        assert started.stderr and started.stdout
        self.assertRegex(started.stderr.readline(), r"^tt: took \d+ of 31 entries; \S+/replica: tt_archive: disk fault\n")
        self.until(lambda: self.entries(self.replica) > 1)
        self.program()  # there is room again
        self.assertRegex(started.stdout.readline(), r"^\d+ entries behind, and took them; has 31, until ")
        started.terminate()
        started.communicate()
        self.assert_same()

    def test_an_archive_that_is_damaged(self) -> None:
        self.follow()
        journal = self.replica / "archive.journal"
        self.fill([Version(START + DAY, "first", "a text")])
        journal.write_bytes(b"x" + journal.read_bytes()[1:])
        said = self.follow("--every", "1s", status=1).stderr
        self.assertEqual(said, f"tt: {journal}: no archive's journal\n")

    def test_a_packet_that_cannot_be_taken(self) -> None:
        bad = "printf '\\0\\0\\0\\0\\0\\0\\0\\1\\0\\0\\0\\1x'"
        said = self.follow("--every", "1s", status=1, TT_ARCHIVE=self.program(export=bad)).stderr
        self.assertIn("took 0 of 31 entries; the next one can't be taken here (tt_archive: bad packet at byte 0)", said)

    def test_signals(self) -> None:
        file = self.folder / "slow.py"
        file.write_text(SLOW)
        slow = self.program(export=f'exec {sys.executable} -S -E {file} {self.size // 2} {shlex.join(find_program(None))} "$@"')
        for number, status in ((signal.SIGTERM, 143), (signal.SIGINT, 130), (signal.SIGHUP, 129), (signal.SIGKILL, -9)):
            with self.subTest(number):
                started = self.start("follow", self.archive, TT_ARCHIVE=slow)
                lock = self.replica / ".tt.lock"
                self.until(lambda: lock.exists() and "the program of" in lock.read_text())
                self.until(lambda: (self.replica / "archive.journal").exists() and (self.replica / "archive.journal").stat().st_size > 100)
                started.send_signal(number)
                said = started.communicate()[1]
                self.assertEqual((started.returncode, said[:12]), (status, "tt: stopped;" if status > 0 else ""))
                if number == signal.SIGKILL:
                    self.assertIn("another tt is at work", self.here("--wait", 0, "follow", self.archive, status=1).stderr)
                    self.here("--wait", "60s", "follow", self.archive)
                    self.assert_same()
                    continue
                self.here("--wait", 0, "status")  # the program was waited for
                self.tt("--wait", 0, "status")
                self.assert_goes_on(1)

    def test_through_ssh(self) -> None:
        (self.folder / "bin").mkdir()
        ssh = self.folder / "bin" / "ssh"
        ssh.write_text(
            "#!/bin/sh\n# Runs here what is meant for there.\nhost=$1; shift\n"
            f'case $host in away) echo no route >&2; exit 255;; dying) sh -c "$*" | (head -c {self.size // 2}; cat >/dev/null); exit 255;; chatty) echo welcome;; esac\n'
            'exec sh -c "$*"\n'
        )
        ssh.chmod(0o755)
        path = {"PATH": f"{ssh.parent}:{os.environ['PATH']}"}
        self.assertIn(f"tt: away:{self.archive}: no route\n", self.here("follow", "ssh", "away", self.archive, status=1, **path).stderr)
        said = self.here("follow", "ssh", "dying", self.archive, status=1, **path).stderr
        self.assertRegex(said, rf"^tt: took \d+ of 31 entries; dying:{self.archive}: its `tt export` ended with status 255\n")
        self.assertIn("can't be read", self.here("follow", "ssh", "chatty", self.archive, status=1, **path).stderr)
        self.assertIn("entries behind, and took them", self.here("follow", "ssh", "near", self.archive, **path).stdout)
        self.assert_same()
        self.assertIn("0 entries behind;", self.here("follow", "ssh", "near", self.archive, **path).stdout)


@needs("follow")
class Apart(Followed):
    """Histories that differ are told in words, and nothing is taken."""

    def assert_apart(self, leader: bytes, own: bytes, *told: str) -> None:
        for folder, script in ((self.archive, leader), (self.replica, own)):
            shutil.rmtree(folder, ignore_errors=True)
            run(folder, given=script)
        before = content(self.replica), content(self.archive)
        said = self.follow(status=1)
        self.assertEqual(said.stdout, "")
        first, *shown = said.stderr.splitlines()
        self.assertIn(told[0].replace("LEADER", str(self.archive)), first)
        self.assertEqual(shown, list(told[1:]))
        self.assertEqual((content(self.replica), content(self.archive)), before)

    def test_texts(self) -> None:
        same, later, own = commands.arrive(1, START, b"The first."), *(commands.delete(1, START + days * DAY) for days in (2, 3))
        one, other = (commands.arrive(7, START + DAY, b"The bridge is %b." % word) for word in (b"closed for repairs until the end of the summer", b"open"))
        self.assert_apart(
            same + one + later, same + other + own, "tt: from its byte 27 on LEADER has another entry 2, so one of the two archives went its own way or was damaged",
            "here   #7 at 2007-07-24: The bridge is open.", "there  #7 at 2007-07-24: The bridge is closed for repairs until the end of the …",
        )  # fmt: skip
        long = b"An \xc3\xa9t\xc3\xa9 of more of these: "  # the cut is in a character
        one, other = (commands.arrive(7, START + DAY, long + word) for word in (b"red\n", b"blue"))
        self.assert_apart(one, other + later.replace(b" 1 ", b" 7 "), "entry 1,", "here   #7 at 2007-07-24: … of more of these: blue", "there  #7 at 2007-07-24: … of more of these: red\\x0a")

    def test_those_that_end_alike(self) -> None:
        """Entries of the same lengths behind which the same one comes, at the same place."""
        one, other = (commands.arrive(7, START, text) for text in (b"red", b"tan"))
        first, last = commands.arrive(1, START, b"The first."), commands.delete(7, START + DAY)
        for more in (b"", commands.arrive(1, START + 2 * DAY, b"more")):
            self.assert_apart(
                first + one + last + more, first + other + last, "from its byte 13 on LEADER has another entry 2,",
                "here   #7 at 2007-07-23: tan", "there  #7 at 2007-07-23: red",
            )  # fmt: skip

    def test_names_are_those_of_each(self) -> None:
        for folder, name, text in ((self.archive, "ferry.txt", b"red"), (self.replica, "bridge\t.txt", b"red")):
            shutil.rmtree(folder, ignore_errors=True)
            folder.mkdir()
            self.tt("init", folder)
            self.fill([Version(START + len(name), name, text.decode())], folder)
        self.assertEqual(
            self.follow(status=1).stderr.splitlines()[1:],
            ["here   bridge\\t.txt at 2007-07-23T00:00:11Z: red", "there  ferry.txt at 2007-07-23T00:00:09Z: red"],
        )

    def test_one_that_has_more(self) -> None:
        first, end = commands.arrive(7, START, b"red"), commands.delete(7, START + DAY)
        self.assert_apart(first, first + end, "tt: LEADER has no entry 2, so", "here   #7 ends at 2007-07-24", "there  nothing")

    @needs("batches")
    def test_batches_and_the_mark(self) -> None:
        first, second, third = (commands.arrive(doc, START + doc, b"red") for doc in (1, 2, 3))
        mark = commands.mark()
        self.assert_apart(
            mark + commands.batch([first, second]), mark + commands.batch([first, third]), "another entry 2,",
            "here   change 2 of 2: #3 at 2007-07-23T00:00:03Z: red", "there  change 2 of 2: #2 at 2007-07-23T00:00:02Z: red",
        )  # fmt: skip
        self.assert_apart(
            mark + commands.batch([first, second, third]), mark + commands.batch([first, second]), "another entry 2,",
            "here   change 3 of 2: nothing", "there  change 3 of 3: #3 at 2007-07-23T00:00:03Z: red",
        )  # fmt: skip
        self.assert_apart(
            mark + first, first, "another entry 1,", "here   #1 at 2007-07-23T00:00:01Z: red", "there  the mark of an archive that may have batches"
        )

    @needs("plans")
    def test_plans(self) -> None:
        planned = PLANNED.replace(b"guarantee 1/1", b"guarantee 2/1")
        self.assert_apart(
            PLANNED, planned, "another entry 5,", "here   a plan of v, guarantee 2/1, until 1970-01-01T00:00:40Z",
            "there  a plan of v, guarantee 1/1, until 1970-01-01T00:00:40Z",
        )  # fmt: skip


@needs("follow")
class Serving(Served):
    def test_both_are_served(self) -> None:
        leader, replica = self.archive, self.folder / "replica"

        def follow() -> str:
            self.archive = replica
            return self.tt("follow", leader).stdout

        follow()
        ports, programs = {}, {}
        for self.archive in (leader, replica):
            self.serve()
            ports[self.archive], programs[self.archive] = self.port, self.program()
        # Where nothing is new, nobody gives way.
        self.assertIn("0 entries behind", follow())
        for self.archive in (leader, replica):
            self.assertEqual(self.program(), programs[self.archive])
        self.archive = leader
        self.tt("import", "folder", self.tree("one", START + 10, 3))
        self.assertIn("1 entry behind, and took it", follow())
        for self.archive in (leader, replica):
            self.port = ports[self.archive]
            self.assertEqual(self.found("text", 4), ["first", "one0.txt", "one1.txt", "one2.txt"])
        self.assertEqual(content(replica), content(leader))


if __name__ == "__main__":
    unittest.main()
