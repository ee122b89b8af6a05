"""Files, folders and streams that aren't what they should be, and disks that are full."""

from __future__ import annotations

import os
import resource
import shutil
import signal
import subprocess
from itertools import product
from pathlib import Path
from typing import Callable

from model import FOLLOW, HEADER, Choice, Outcome, packets
from scripts import Folder

from attacks.rig import AUDIT_FAULT, DISK_FAULT, EXPORT, NEXT_SCRIPT, RUNS, SAMPLE, SCRIPT, SINK_FAULT, SOURCE_FAULT
from attacks.rig import Whole, ends, expect, following, follows, kinds, nothing, some

DONE = Outcome(b"", "", 0)
#: The length of a file that is nearly nothing but a hole.
SPARSE = 3 << 30
PLANNED = b"arrive 1 10 1\nv\ndelete 1 20\nplan v guarantee 1/1\n"


def odd_files(program: str, audit: str) -> str:
    """A journal, or Pages, that is no plain file, or a link. Where the program can't use it, it ends with status 4."""
    refused: list[tuple[str, Callable[[Path], None]]] = [
        ("a folder", Path.mkdir),
        ("a pipe", os.mkfifo),
        ("a link to itself", lambda path: path.symlink_to(path.name)),
        ("a link into no folder", lambda path: path.symlink_to("no/file")),
        ("a link to a device that is full", lambda path: path.symlink_to("/dev/full")),
    ]
    for what, make in refused:
        for name in ("archive.journal", "archive.pages"):
            with Folder(program) as folder:
                if name == "archive.pages":
                    folder.journal.write_bytes(HEADER + b"\0")
                make(folder.path / name)
                for script in (EXPORT, FOLLOW, PLANNED):
                    outcome = folder.run(script)
                    is_told = (outcome.status, outcome.line) == (DISK_FAULT.status, DISK_FAULT.line)
                    expect(is_told and (script == PLANNED or not outcome.shown), f"{name} is {what}: {outcome} of {script!r}")
    for what in ("a link to a file", "a link to nothing"):
        with Folder(program) as folder:
            (folder.path / "other").mkdir()
            for path in (folder.journal, folder.pages):
                path.symlink_to(Path("other") / path.name)
                if what == "a link to a file":
                    path.resolve().touch()
            told, wanted = ends([audit], folder.path), Outcome(b"sound 0 0\n", "", 0) if what == "a link to a file" else AUDIT_FAULT
            expect(told == wanted, f"an audit where each file is {what}: {told}")
            for script in (EXPORT, FOLLOW, SCRIPT, EXPORT, NEXT_SCRIPT):
                expect(not (difference := folder.difference(script)), f"each file is {what}: {difference}")
            expect(folder.journal.is_symlink() and folder.journal.resolve().is_file(), f"the journal is no more {what}")
    return f"{2 * len(refused)} files that are none, and 2 links to files"


def odd_folders(program: str, audit: str) -> str:
    """Folders in which no file can be made, and processes that may have few files open."""
    with Folder(program) as folder:
        gone = folder.path / "gone"
        gone.mkdir()
        outcome = ends([program], gone, preexec_fn=gone.rmdir)
        expect(outcome == DISK_FAULT, f"a program in a folder that was deleted: {outcome}")
    wholes, limits = [Whole.of(program, *run) for run in ((some, SCRIPT), (kinds, EXPORT), follows(program)[1])], range(4, 9)
    for whole, limit in product(wholes, limits):  # (3 are the streams, and what loads the program takes another)
        with Folder(program) as folder:
            whole.fill(folder)
            outcome = folder.run_as(["/bin/sh", "-c", f'ulimit -n {limit}; exec "$0" "$@"', program], whole.script)
            whole.check_cut(folder, outcome, [DISK_FAULT], f"a program that may have {limit} files open")
    with Folder(program) as folder:
        copy = folder.path / "program"
        shutil.copy(program, copy)
        copy.chmod(0o755)
        folder.path.chmod(0o555)
        nobody = ["setpriv", "--reuid=65534", "--regid=65534", "--clear-groups"] if os.geteuid() == 0 else []
        if nobody and shutil.which("setpriv") is None:
            return f"a folder that is gone, and {len(limits)} limits of open files (without setpriv, none that can't be written)"
        outcome = ends([*nobody, str(copy)], folder.path)
        folder.path.chmod(0o755)
        expect(outcome == DISK_FAULT, f"a program in a folder that can't be written: {outcome}")
        expect(os.listdir(folder.path) == ["program"], f"a program in a folder that can't be written leaves {os.listdir(folder.path)}")
    return f"2 folders that can't be used, and {len(limits)} limits of open files"


def sparse_files(program: str, audit: str) -> str:
    """An archive whose files go on for 3 GB behind their end: these bytes have no meaning."""
    with Folder(program) as folder:
        some(folder)
        folder.was_cut = True
        for path in (folder.journal, folder.pages):
            os.truncate(path, SPARSE)
        for script in (EXPORT, FOLLOW + packets(folder.archive.entries, 1)):
            outcome = folder.run(script)
            expect(outcome == folder.archive.run(script, Choice([], b"")), f"an export, or a follower, with a hole of 3 GB behind its files: {outcome}")
        outcome = folder.run(NEXT_SCRIPT)
        with folder.journal.open("rb") as journal, folder.pages.open("rb") as pages:
            difference = folder.difference_of(NEXT_SCRIPT, outcome, journal.read(1 << 16), pages.read(1 << 16))
        expect(not difference, f"an archive with a hole of 3 GB behind it: {difference}")
        told = ends([audit], folder.path)
        expect((told.status, told.line) == (0, ""), f"an audit of an archive with a hole of 3 GB behind it: {told}")
        for path in (folder.journal, folder.pages):
            taken = path.stat().st_blocks * 512
            expect(path.stat().st_size == SPARSE and taken < 1 << 20, f"{path.name} takes {taken} of {path.stat().st_size} bytes now")
    return "2 files with a hole of 3 GB behind them"


def odd_streams(program: str, audit: str) -> str:
    """Streams that can't be read or written, or are closed. What was acknowledged stays. A sample and an export don't ask for their
    input."""
    wholes = [Whole.of(program, *run) for run in ((some, SCRIPT), (nothing, SAMPLE), (kinds, EXPORT), follows(program)[1])]
    reader, writer = os.pipe()
    os.close(reader)
    root = os.open("/", os.O_RDONLY)
    with open(os.devnull, "rb") as source, open("/dev/full", "wb") as full:
        tries: list[tuple[str, dict[str, object], Outcome]] = [
            ("standard input is a folder", {"stdin": root}, SOURCE_FAULT),
            ("standard input can't be read", {"stdin": full}, SOURCE_FAULT),
            ("standard output is full", {"stdout": full}, SINK_FAULT),
            ("standard output can't be written", {"stdout": source}, SINK_FAULT),
            ("nobody reads standard output", {"stdout": writer}, SINK_FAULT),
        ]
        for whole, (what, streams, wanted) in product(wholes, tries):
            wanted = wanted if whole.reads or "stdin" not in streams else whole.outcome
            with Folder(program) as folder:
                whole.fill(folder)
                outcome = folder.run_as([program], whole.script, **streams)
                expect(outcome == wanted, f"{what}: {outcome}")
                whole.check_cut(folder, outcome, [wanted], what)
    os.close(root)
    os.close(writer)
    # A stream that is closed: no file of the archive may come to stand in its place.
    closed = {
        **{"<&-": SOURCE_FAULT, ">&-": SINK_FAULT, "2>&-": DONE, "<&- >&-": SOURCE_FAULT},
        **{"<&- 2>&-": Outcome(b"", "", 5), ">&- 2>&-": Outcome(b"", "", 6), "<&- >&- 2>&-": Outcome(b"", "", 5)},
    }
    for whole, words in product(wholes, closed):
        wanted = closed.get(words if whole.reads else words.removeprefix("<&-").lstrip(), DONE)
        with Folder(program) as folder:
            whole.fill(folder)
            outcome = folder.run_as(["/bin/sh", "-c", f'exec "$0" "$@" {words}', program], whole.script)
            whole.check_cut(folder, outcome, [wanted], f"a program with {words}")
    return f"{len(tries) + len(closed)} streams that can't be used, each by a script, by a sample, by an export and by a follower"


def full_disks(program: str, audit: str, *, is_all: bool) -> str:
    """Files that may not grow beyond each size in turn, and where a file system can be mounted, small disks."""
    count = 0
    for fill, script in [*RUNS, *follows(program)[1:]]:
        whole = Whole.of(program, fill, script)
        with Folder(program) as folder:
            whole.fill(folder)
            least = folder.journal.stat().st_size if folder.journal.exists() else 0
            expect(not (difference := folder.difference(script)), difference)
            pages = folder.pages.stat().st_size
        step = 64 if is_all else max(1_117, pages // 40)
        for limit in [*range(least, 1_600, 1 if is_all else 19), *range(4_096, pages + step, step)]:
            with Folder(program) as folder:
                whole.fill(folder)
                outcome = folder.run_as([program], script, preexec_fn=lambda: limit_files(limit), restore_signals=False)
                whole.check_cut(folder, outcome, [DISK_FAULT], f"files of at most {limit} bytes")
                count += 1
    return f"{count} limits of a file's size, " + _small_disks(program)


def limit_files(size: int) -> None:
    """In a process to be: no file may grow beyond a size, and a write that would fails."""
    signal.signal(signal.SIGXFSZ, signal.SIG_IGN)
    resource.setrlimit(resource.RLIMIT_FSIZE, (size, size))


#: A plan with so many sublists that it takes many pages, and then another.
ARRIVALS = b"".join(b"arrive %d %d 3\nred\n" % (at, at) for at in range(1, 41))
MANY_PAGES = [ARRIVALS + b"plan red guarantee 1/1\n%b red guarantee 3/2\nfind 20 red\nverify\n" % name for name in (b"plan", b"begin")]


def _small_disks(program: str) -> str:
    """Small disks, on which there is no room for all."""
    sizes, faults = range(4_096, 300_000, 12_288), 0
    scripts = [*MANY_PAGES, following(program, lambda leader: expect(not leader.difference(MANY_PAGES[0]), "plans of many pages"))]
    for whole, size in product([Whole.of(program, nothing, script) for script in scripts], sizes):
        with Folder(program) as folder:
            disk = folder.path / "disk"
            disk.mkdir()
            mount = ["mount", "-t", "tmpfs", "-o", f"size={size},mode=700", "tmpfs", disk]
            if shutil.which("mount") is None or subprocess.run(mount, capture_output=True).returncode != 0:
                return "and no small disk, since none can be mounted here"
            try:
                outcome = Folder(program, disk).run(whole.script)
                shutil.copytree(disk, folder.path / "saved")
            finally:
                subprocess.run(["umount", disk], check=True)
            what = f"a disk of {size} bytes"
            expect((outcome.status, outcome.line) in [(0, ""), (4, DISK_FAULT.line)], f"{what}: {outcome}")
            expect(whole.shown.startswith(outcome.shown), f"{what}: {outcome.shown!r} is no front of {whole.shown!r}")
            faults += outcome.status == 4
            saved = Folder(program, folder.path / "saved")
            with saved:
                whole.check_next(saved, outcome.shown, what)
    return f"and {len(scripts) * len(sizes)} small disks, {faults} of them too small"
