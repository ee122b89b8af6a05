"""Calls of the system that fail, each in turn, and a death at each call. strace makes them so, on the real files."""

from __future__ import annotations

import random
import re
from collections import Counter
from dataclasses import dataclass
from itertools import product
from typing import Callable, Iterator

from model import Outcome
from scripts import Folder

from attacks.rig import AUDIT_FAULT, BATCH_SCRIPT, BROKEN_SCRIPT, DISK_FAULT, EXPORT, EXPORTS, JOB_SCRIPT, NO_LOCKS, REFUSED, RUNS
from attacks.rig import SAMPLE, SCRIPT, SINK_FAULT, SOURCE_FAULT
from attacks.rig import Whole, expect, follows, is_export, is_follow, kinds, nothing, some

FILES = [".", "archive.journal", "archive.pages"]
CALL = re.compile(r"^\d+ +(\w+)\(", re.MULTILINE)
READS = {"read", "pread64", "readv", "preadv", "preadv2"}
WRITES = {"write", "pwrite64", "writev", "pwritev", "pwritev2"}
SYNCS = {"fsync", "fdatasync", "sync_file_range"}
#: What is made of a call: it fails, is to be made again, or moves no byte; with `+` all later calls of its name fail too.
FAULTS = {
    **{name: ["error=EIO", "error=EINTR", "retval=0", "error=EIO+"] for name in READS},
    **{name: ["error=EIO", "error=ENOSPC", "error=EINTR", "retval=0", "error=ENOSPC+"] for name in WRITES},
    **{name: ["error=EIO", "error=ENOSPC", "error=EINTR", "error=EIO+"] for name in SYNCS},
}
#: How many are tried of each random script.
FAULTS_OF_SCRIPT = 4
OTHERS = ["error=EIO", "error=ENOMEM"]
#: A program learns nothing of whether it could close a file.
UNASKED = {"close"}


@dataclass(frozen=True)
class Tracer:
    """A program under strace, for its calls on some files of its folder alone."""

    program: str
    names: list[str]

    def run(self, folder: Folder, *words: str, script: bytes = SCRIPT) -> Outcome:
        """Runs a script; the streams are files of the folder too."""
        watched = [it for name in self.names for path in (name, str(folder.path / name)) for it in ("-P", path)]
        with open(folder.path / "shown", "wb") as shown:
            outcome = folder.run_as(["strace", "-f", "-qq", "-o", "calls", *watched, *words, self.program], script, stdout=shown)
        lines = [it for it in outcome.line.splitlines(keepends=True) if not it.startswith("strace: Requested path")]
        return Outcome((folder.path / "shown").read_bytes(), "".join(lines), outcome.status)

    def faults(self, folder: Folder, wanted: Outcome, step: int, script: bytes = SCRIPT) -> Iterator[tuple[str, str]]:
        """Runs a script without faults. Gives each call that it made, and what may be made of it, or of each so many one."""
        outcome = self.run(folder, script=script)
        expect(outcome == wanted, f"a traced run without faults: {outcome}")
        calls = Counter(CALL.findall((folder.path / "calls").read_text()))
        faults = [(name, fault) for name in calls for fault in FAULTS.get(name, OTHERS)]
        tries = [(name, _nth(fault, nth)) for name, fault in faults for nth in range(1, calls[name] + 1)]
        yield from (it for it in tries[::step] if it[0] not in UNASKED)

    def run_with(self, folder: Folder, name: str, fault: str, script: bytes = SCRIPT) -> Outcome:
        """Runs a script with what is made of a call."""
        outcome = self.run(folder, "-e", f"inject={name}:{fault}", script=script)
        expect("INJECTED" in (folder.path / "calls").read_text(), f"{name} with {fault}: the call isn't made")
        return outcome


def _nth(fault: str, nth: int) -> str:
    """The fault of the nth call, as strace spells it."""
    return f"{fault[:-1]}:when={nth}+" if fault.endswith("+") else f"{fault}:when={nth}"


def _told(fill: Callable[[Folder], None], script: bytes) -> str:
    """What a run is on, in words."""
    told = {JOB_SCRIPT: ", with plans in steps", BROKEN_SCRIPT: ", with a plan in steps that is left"}
    other = ", by an export" if is_export(script) else ", by a follower" if is_follow(script) else ""
    kind = {BATCH_SCRIPT: ", with batches", SAMPLE: ", by a sample", **told}.get(script, other)
    return ("a new archive" if fill is nothing else "an archive with plans") + kind


def fail_calls(program: str, audit: str, *, is_all: bool) -> str:
    """Each call on the files fails once; the run ends as it is to, and nothing is lost. An export whose sync fails shows nothing."""
    told, tracer = Counter[str](), Tracer(program, FILES)
    for fill, script in [*RUNS, *EXPORTS, *follows(program), REFUSED]:
        whole = Whole.of(program, fill, script)
        with Folder(program) as first:
            whole.fill(first)
            for name, fault in tracer.faults(first, whole.outcome, 1 if is_all else 3, script):
                with Folder(program) as folder:
                    whole.fill(folder)
                    outcome = tracer.run_with(folder, name, fault, script)
                    what = f"{name} with {fault} on {_told(fill, script)}"
                    whole.check_cut(folder, outcome, [NO_LOCKS if name == "flock" else DISK_FAULT], what)
                    is_early = is_export(script) and name in SYNCS and outcome.status != 0
                    expect(not is_early or not outcome.shown, f"{what}: shows {outcome.shown!r} before it has synced")
                    told[name] += 1
    return f"{told.total()} calls on files that fail ({', '.join(f'{count} of {name}' for name, count in sorted(told.items()))})"


def fail_random_calls(program: str, audit: str, *, is_all: bool) -> str:
    """Some calls of random scripts on random archives fail, and of archives that follow one with such scripts."""
    tracer, scenarios = Tracer(program, FILES), 200 if is_all else 15
    for number, is_followed in product(range(scenarios), (False, True)):
        whole = Whole.random(program, number, follows=is_followed)
        with Folder(program) as first:
            whole.fill(first)
            faults = list(tracer.faults(first, whole.outcome, 1, whole.script))
        for name, fault in random.Random(number).sample(faults, FAULTS_OF_SCRIPT):
            with Folder(program) as folder:
                whole.fill(folder)
                outcome = tracer.run_with(folder, name, fault, whole.script)
                what = f"{name} with {fault} in the random {'packets' if is_followed else 'script'} {number}, {whole.script!r}"
                whole.check_cut(folder, outcome, [NO_LOCKS if name == "flock" else DISK_FAULT], what)
    return f"{2 * scenarios * FAULTS_OF_SCRIPT} calls that fail in {scenarios} random scripts and in as many followers of such"


def fail_streams(program: str, audit: str) -> str:
    """Each call on the standard streams fails once."""
    count, streams = 0, [("script", READS, SOURCE_FAULT), ("shown", WRITES, SINK_FAULT)]
    wholes = [Whole.of(program, some), Whole.of(program, nothing, SAMPLE), Whole.of(program, kinds, EXPORT)]
    wholes += [Whole.of(program, *it) for it in follows(program)[1:]]
    for whole, (stream, calls, allowed) in product(wholes, streams):
        tracer = Tracer(program, [stream])
        with Folder(program) as first:
            whole.fill(first)
            for name, fault in tracer.faults(first, whole.outcome, 1, whole.script):
                if name not in calls or (stream == "script" and fault.startswith("retval=0")):
                    continue  # (a read of no byte is the end of the script)
                with Folder(program) as folder:
                    whole.fill(folder)
                    outcome = tracer.run_with(folder, name, fault, whole.script)
                    whole.check_cut(folder, outcome, [allowed], f"{name} with {fault} of the {stream}")
                    count += 1
    return f"{count} calls on streams that fail"


def fail_audits(program: str, audit: str) -> str:
    """Each call of an audit fails once: it tells so, or what it tells is right, and no file is changed."""
    count = 0
    with Folder(program) as folder:
        some(folder)
        files = folder.files()
        whole = Outcome(b"sound 2 2\n", "", 0)
        for names, allowed in ((FILES, AUDIT_FAULT), (["shown"], Outcome(b"", "tt_verify: sink fault\n", 6))):
            tracer = Tracer(audit, names)
            for name, fault in tracer.faults(folder, whole, 1):
                outcome = tracer.run_with(folder, name, fault)
                no_locks = Outcome(b"", NO_LOCKS.line.replace("tt_archive", "tt_verify"), 4)
                wanted = no_locks if name == "flock" else allowed
                expect(outcome in (whole, wanted), f"an audit, and {name} with {fault}: {outcome}")
                expect(folder.files() == files, f"an audit changes a file at {name} with {fault}")
                count += 1
    return f"{count} calls of audits that fail"


def die_at_calls(program: str, audit: str, *, is_all: bool) -> str:
    """The program is killed at each call on the files that makes, changes or syncs one, before the call is made; and an export at each
    call on its output too. Behind some of these deaths the load that follows is killed so."""
    count = again = 0
    for fill, script in [*RUNS, *EXPORTS, *follows(program), REFUSED]:
        whole, tracer = Whole.of(program, fill, script), Tracer(program, [*FILES, "shown"] if is_export(script) else FILES)
        with Folder(program) as first:
            whole.fill(first)
            outcome = tracer.run(first, script=script)
            expect(outcome == whole.outcome, f"a traced run without faults: {outcome}")
            deaths = _fatal_calls(first)
        for name, nth in deaths:
            with Folder(program) as folder:
                whole.fill(folder)
                outcome = tracer.run(folder, "-e", f"inject={name}:signal=KILL:when={nth}", script=script)
                what = f"a death at call {nth} of {name} on {_told(fill, script)}"
                expect(outcome.status in (-9, 137), f"{what}: {outcome}")
                again += 0 if count % (1 if is_all else 30) else _die_again(folder, whole, outcome.shown, what)
                whole.check_cut(folder, outcome, [outcome], what)
                count += 1
    return f"{count} deaths at calls on files and on what an export shows, and {again} at calls of the load behind one"


def _fatal_calls(folder: Folder) -> list[tuple[str, int]]:
    """The calls of a traced run at which a death may tell, each by its name and number."""
    calls = Counter(CALL.findall((folder.path / "calls").read_text()))
    names = sorted(calls.keys() & {*WRITES, *SYNCS, "openat", "ftruncate"})
    return [(name, nth) for name in names for nth in range(1, calls[name] + 1)]


def _die_again(left: Folder, whole: Whole, shown: bytes, what: str) -> int:
    """The load of what a death left is killed at each of its calls; tells how many these are. `shown` is what was shown before the first."""
    tracer, files = Tracer(left.program, FILES), [(it.name, it.read_bytes()) for it in (left.journal, left.pages) if it.exists()]
    deaths, number = [("none", 0)], 0  # (the load without a death comes first, and tells its calls)
    for number, (name, nth) in enumerate(deaths):
        with Folder(left.program) as folder:
            for path, content in files:
                (folder.path / path).write_bytes(content)
            outcome = tracer.run(folder, *(["-e", f"inject={name}:signal=KILL:when={nth}"] if nth else []), script=b"")
            expect(outcome.status in ((-9, 137) if nth else (0,)) and not outcome.shown, f"{what}, and a load: {outcome}")
            deaths += [] if nth else _fatal_calls(folder)
            whole.check_next(folder, shown, f"{what}, and another at call {nth} of {name} in the load")
    return number
