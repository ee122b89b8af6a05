"""Programs that are started in one folder at one time: each works alone, or tells that another is at work."""

from __future__ import annotations

import fcntl
import os
import random
import re
import select
import signal
import subprocess
import time
from contextlib import contextmanager
from itertools import product
from struct import pack
from typing import Callable, Iterator

from model import FOLLOW, Choice, Outcome, input_of, packets, words_of
from scripts import MOST_SECONDS, Folder

from attacks.faults import CALL, FILES, Tracer
from attacks.rig import EXPORT, SAMPLE, STREAMS, expect, following, kinds, long_kinds, nothing

ROUNDS, ROUNDS_OF_SAMPLES, ROUNDS_OF_EXPORTS, ROUNDS_OF_FOLLOWERS, STARTED = 40, 10, 10, 10, 6
#: What is shown of the longest sample. (The model takes minutes for it, and told the same once.)
LONGEST = b"--generate 9999999999999999999 --count 100000\n"
LONGEST_SHOWN = b"generated 100000 accepted 90008 refused 10000 hits 17 read 3517\nsound 8 13006\n"
HELD = "another program is at work in this folder\n"


def race(program: str, audit: str) -> str:
    """Starts programs and audits together, round after round on one archive."""
    chance, worked, audited = random.Random(7), 0, 0
    with Folder(program) as folder:
        for number in range(1, ROUNDS + 1):
            scripts = [_script(number, at) for at in range(STARTED)]
            commands = [*((program, script) for script in scripts), (audit, b""), (audit, b"")]
            started = []
            for command, script in chance.sample(commands, len(commands)):
                process = subprocess.Popen([command], cwd=folder.path, **STREAMS)
                started.append((command, script, process))
            ended = []
            for command, script, process in started:
                shown, line = process.communicate(script, timeout=MOST_SECONDS)
                ended.append((command, script, Outcome(shown, line.decode(), process.returncode)))
            worked += _check(folder, [(script, outcome) for command, script, outcome in ended if command == program], number)
            for outcome in (outcome for command, _, outcome in ended if command == audit):
                is_held = outcome == Outcome(b"", f"tt_verify: {HELD}", 11)
                is_early = number == 1 and outcome == Outcome(b"", "tt_verify: disk fault\n", 4)  # (there may be no file yet)
                expect(is_held or is_early or outcome == Outcome(b"sound 0 0\n", "", 0), f"an audit in round {number}: {outcome}")
                audited += outcome.status == 0
    expect(worked > 0, f"in {ROUNDS} rounds no program worked")
    for _ in range(ROUNDS_OF_SAMPLES):
        _race_samples(program)
    told = f"{ROUNDS} rounds of {STARTED} programs and 2 audits at one time: {worked} programs and {audited} audits worked"
    told += f"; {ROUNDS_OF_SAMPLES} of {STARTED} samples; {ROUNDS_OF_EXPORTS} with {STARTED} exports, {_race_exports(program)} of which worked"
    return f"{told}; and {ROUNDS_OF_FOLLOWERS} of {STARTED} followers, {_race_followers(program)} of which worked"


def _race_samples(program: str) -> None:
    """Starts samples together in a new folder: one is made, and the others are told of its entries, or that it is at work."""
    with Folder(program) as folder:
        samples = [b"--generate %d --count 9\n" % seed for seed in range(STARTED)]
        started = [(it, subprocess.Popen([program, *words_of(it)], cwd=folder.path, **STREAMS)) for it in samples]
        shown = [(it, *process.communicate(timeout=MOST_SECONDS), process.returncode) for it, process in started]
        ended = [(it, Outcome(shown, line.decode(), status)) for it, shown, line, status in shown]
        made = [it for it in ended if it[1].status == 0]
        expect(len(made) == 1, f"samples that are started together end so: {ended}")
        difference = folder.difference_of(*made[0], *folder.files())
        expect(not difference, f"a sample that is started with others: {difference}")
        allowed = [made[0][1], Outcome(b"", f"tt_archive: {HELD}", 11), folder.archive.run(SAMPLE, Choice([], b""))]
        expect(all(outcome in allowed for _, outcome in ended), f"samples that are started together end so: {ended}")


def _race_exports(program: str) -> int:
    """Starts programs and exports together. An export shows what was there between two of the programs. Tells how many exports worked."""
    chance, worked = random.Random(7), 0
    with Folder(program) as folder:
        for number in range(1, ROUNDS_OF_EXPORTS + 1):
            scripts = [*(_script(number, at) for at in range(2)), *[EXPORT] * STARTED]
            started = [(it, subprocess.Popen([program, *words_of(it)], cwd=folder.path, **STREAMS)) for it in chance.sample(scripts, len(scripts))]
            ended = []
            for script, process in started:
                shown, line = process.communicate(b"" if script == EXPORT else script, timeout=MOST_SECONDS)
                ended.append((script, Outcome(shown, line.decode(), process.returncode)))
            before = len(folder.archive.entries)
            _check(folder, [it for it in ended if it[0] != EXPORT], number)
            entries = folder.archive.entries
            allowed = [packets(entries[:count], 1) for count in range(before, len(entries) + 1, len(_script(1, 0).splitlines()) // 2)]
            for outcome in (outcome for script, outcome in ended if script == EXPORT and outcome.status != 11):
                is_between = outcome.shown in allowed and (outcome.status, outcome.line) == (0, "")
                expect(is_between, f"an export in round {number}, with {before} to {len(entries)} entries: {outcome}")
                worked += 1
    expect(worked > 0, f"in {ROUNDS_OF_EXPORTS} rounds no export worked")
    return worked


def _race_followers(program: str) -> int:
    """Starts followers of one leader together, each with the packets from one that the archive may have on: one takes what there is more,
    and the others have it, or are told that another is at work. Tells how many worked."""
    chance, worked = random.Random(7), 0
    with Folder(program) as leader, Folder(program) as folder:
        for number in range(1, ROUNDS_OF_FOLLOWERS + 1):
            expect(not (difference := leader.difference(_script(number, 0) + b"plan red guarantee 3/2\n")), f"a leader: {difference}")
            scripts = [FOLLOW + packets(leader.archive.entries, chance.randint(1, len(folder.archive.entries) + 1)) for _ in range(STARTED)]
            started = [(it, subprocess.Popen([program, *words_of(it)], cwd=folder.path, **STREAMS)) for it in scripts]
            shown = [(it, *process.communicate(input_of(it), timeout=MOST_SECONDS), process.returncode) for it, process in started]
            ended = [(it, Outcome(shown, line.decode(), status)) for it, shown, line, status in shown]
            first = [it for it in ended if b"took " in it[1].shown]
            expect(len(first) == 1, f"followers that are started together end so: {[it[1] for it in ended]}")
            for script, outcome in [*first, *(it for it in ended if it not in first)]:
                wanted = [folder.archive.run(script, Choice([], b"")), Outcome(b"", f"tt_archive: {HELD}", 11)]
                expect(outcome in wanted, f"a follower in round {number}: {outcome}, and not {wanted[0]}")
                worked += outcome.status == 0
            difference = folder.file_difference(*folder.files()) or leader.file_difference(*folder.files())
            expect(not difference, f"followers in round {number}: {difference}")
    return worked


def _script(number: int, at: int) -> bytes:
    """Changes of a document of its own, all at the time of the round, so that they may come in any order."""
    arrivals = b"".join(b"arrive %d %d 3\nred\n" % (100 * at + document, number) for document in range(20))
    return arrivals + b"find %d red\n" % (number - 1)


def _check(folder: Folder, ended: list[tuple[bytes, Outcome]], number: int) -> int:
    """Each program worked alone or not at all: what those showed that worked is what the model says of them in some order, and all
    that they changed is there. Tells how many worked."""
    worked = [(script, outcome) for script, outcome in ended if outcome.status != 11]
    for script, outcome in ended:
        held = Outcome(b"", f"tt_archive: {HELD}", 11)
        expect(outcome == held or (outcome.status, outcome.line) == (0, ""), f"a program in round {number}: {outcome}")
    for script, outcome in sorted(worked, key=lambda it: int(it[1].shown.split()[1])):
        wanted = folder.archive.run(script, Choice([], outcome.shown))
        expect(outcome == wanted, f"a program in round {number}: {outcome}, and not {wanted}")
    if worked:  # (none did where audits held the lock)
        difference = folder.file_difference(folder.journal.read_bytes(), folder.pages.read_bytes())
        expect(not difference, f"round {number}, in which {len(worked)} programs worked: {difference}")
    return len(worked)


#: A batch of which a command is still to come, and a plan of which most pages are; each with how many lines are shown before, and
#: with what comes behind.
BATCH_TO_COME = b"format 2\nbatch 2\narrive 8 50 3\nred\n", 1, b"delete 8 51\nfind 50 red\n"
PAGES_TO_COME = b"begin red guarantee 1/1\nshow 1 1\n", 2, b"find 11 red\nverify\n"
#: A follower, and the packet of an arrival.
ONE_PACKET = FOLLOW + packets([pack(">BIQ", 1, 8, 50) + b"red"], 1)
ARRIVALS = b"".join(b"arrive %d %d 3\nred\n" % (at, at) for at in range(1, 41))


def refuse_beside(program: str, audit: str) -> str:
    """Stops programs amid their work. Who comes then is refused."""
    held = [_refuse_beside_sample(program, audit), _refuse_beside_export(program, audit), _refuse_beside_locks(program)]
    held += [_refuse_beside_script(program, audit, nothing, *BATCH_TO_COME), _refuse_beside_script(program, audit, _many, *PAGES_TO_COME)]
    followed = following(program, kinds)
    held += [_refuse_beside_script(program, audit, nothing, followed[:-9], 12, followed[-9:])]  # a follower, amid the last of 13 packets
    return f"{sum(held)} programs beside the longest sample, an export, locks, a follower, a batch and a plan's pages to come, each stopped amid its work"


def _many(folder: Folder) -> None:
    """A word in many documents, so that a plan of it takes many pages."""
    expect(not (difference := folder.difference(ARRIVALS)), f"many arrivals: {difference}")


def _refuse_others(folder: Folder, program: str, audit: str, what: str) -> int:
    """Who comes beside a program that is stopped opens the journal alone, and reads, writes, pulls and shows nothing."""
    others = [(program, b"arrive 1 10 3\nred\n"), (program, SAMPLE), (program, EXPORT), (program, ONE_PACKET), (audit, b"verify\n")]
    left, names = folder.files(), {*os.listdir(folder.path), "calls", "script", "shown"}
    for command, script in others:
        outcome = Tracer(command, FILES).run(folder, script=script)
        calls = set(CALL.findall((folder.path / "calls").read_text()))
        is_held = outcome == Outcome(b"", f"{'tt_verify' if command == audit else 'tt_archive'}: {HELD}", 11)
        expect(is_held and folder.pulled == 0 and folder.files() == left, f"{command} on {script!r} beside {what}: {outcome}")
        expect(calls <= {"openat", "fcntl", "flock", "close"}, f"{command} on {script!r} beside {what} calls {calls}")
        expect({*os.listdir(folder.path)} == names, f"{command} on {script!r} beside {what} leaves {os.listdir(folder.path)}")
    return len(others)


@contextmanager
def _started(command: list[str], folder: Folder) -> Iterator[subprocess.Popen[bytes]]:
    """A command in a folder. It is killed where it is still there at the end, stopped or not."""
    with subprocess.Popen(command, cwd=folder.path, bufsize=0, **STREAMS) as process:
        try:
            yield process
        finally:
            process.kill()


def _stop(process: subprocess.Popen[bytes]) -> None:
    """Stops a program, and waits until it is stopped."""
    process.send_signal(signal.SIGSTOP)
    os.waitid(os.P_PID, process.pid, os.WSTOPPED | os.WEXITED | os.WNOWAIT)
    expect(process.poll() is None, "a program is at its end before others come")


def _refuse_beside_export(program: str, audit: str) -> int:
    """Beside an export that waits for whoever reads it. It goes on as if nobody had come; killed, it leaves the lock to the next."""
    with Folder(program) as folder:
        long_kinds(folder)
        whole, refused = packets(folder.archive.entries, 1), 0
        for kills in (False, True):
            with _started([program, *words_of(EXPORT)], folder) as process:
                expect(bool(select.select([process.stdout], [], [], MOST_SECONDS)[0]), "an export shows nothing")
                _stop(process)
                refused += _refuse_others(folder, program, audit, "an export")
                process.send_signal(signal.SIGKILL if kills else signal.SIGCONT)
                shown, line = process.communicate(timeout=MOST_SECONDS)
                is_right = whole.startswith(shown) if kills else shown == whole
                is_right = is_right and (process.returncode, line) == (-9 if kills else 0, b"")
                expect(is_right, f"an export beside which others came ends with {process.returncode} and {line!r}")
            expect(not (difference := folder.difference(b"arrive 9 %d 3\nred\n" % (90 + kills))), f"behind an export: {difference}")
            whole = packets(folder.archive.entries, 1)
    return refused


def _refuse_beside_locks(program: str) -> int:
    """An export and a follower beside a lock of either kind, in a folder without Pages."""
    with Folder(program) as folder:
        folder.journal.touch()
        with folder.journal.open("rb") as journal:
            for kind, script in product((fcntl.LOCK_EX, fcntl.LOCK_SH), (EXPORT, ONE_PACKET)):
                fcntl.flock(journal, kind)
                outcome = folder.run(script)
                expect(outcome == Outcome(b"", f"tt_archive: {HELD}", 11), f"an export, or a follower, beside a lock: {outcome}")
                is_left = folder.files() == [b"", b""] and not folder.pages.exists() and folder.pulled == 0
                expect(is_left, "an export, or a follower, beside a lock makes or changes a file, or pulls")
        for script in (EXPORT, ONE_PACKET):
            expect(not (difference := folder.difference(script)), f"an export, or a follower, behind locks: {difference}")
    return 4


def _refuse_beside_script(program: str, audit: str, fill: Callable[[Folder], None], begun: bytes, lines: int, rest: bytes) -> int:
    """Beside a program that waits for the rest of its script, or a follower that does for the rest of a packet, and has shown so many
    lines."""
    with Folder(program) as folder:
        fill(folder)
        with _started([program, *words_of(begun)], folder) as process:
            process.stdin.write(input_of(begun))
            shown = b""
            while shown.count(b"\n") < lines:
                shown += os.read(process.stdout.fileno(), 1 << 16)
            _stop(process)
            refused = _refuse_others(folder, program, audit, f"a program that was given {begun!r}")
            process.send_signal(signal.SIGCONT)
            others, line = process.communicate(rest, timeout=MOST_SECONDS)
        outcome = Outcome(shown + others, line.decode(), process.returncode)
        expect(not (difference := folder.difference_of(begun + rest, outcome, *folder.files())), f"beside which others came: {difference}")
    return refused


def _refuse_beside_sample(program: str, audit: str) -> int:
    """Beside the longest sample. It goes on as if nobody had come, and tells a terminal of its work, since it takes more than a second."""
    terminal, errors = os.openpty()
    with Folder(program) as folder:
        with subprocess.Popen([program, *words_of(LONGEST)], cwd=folder.path, stdout=subprocess.PIPE, stderr=errors) as process:
            try:
                while process.poll() is None and len(folder.files()[0]) < 1 << 12:
                    time.sleep(0.001)
                _stop(process)
                stopped = time.monotonic()
                refused = _refuse_others(folder, program, audit, "the longest sample")
                time.sleep(max(0, stopped + 1 - time.monotonic()))
                process.send_signal(signal.SIGCONT)
                outcome = Outcome(process.communicate(timeout=MOST_SECONDS)[0], "", process.returncode)
            finally:
                process.kill()
        expect(outcome == Outcome(LONGEST_SHOWN, "", 0), f"the longest sample, beside which others came: {outcome}")
    os.write(errors, b"$")
    told, line = b"", rb"\r\x1b\[Ktt_archive: (reading|writing) the (journal|pages), \d+ (bytes|%)"
    while not told.endswith(b"$"):
        told += os.read(terminal, 1 << 16)
    os.close(terminal)
    os.close(errors)
    expect(re.fullmatch(rb"(%b)+\r\x1b\[K\$" % line, told), f"a sample of more than a second tells a terminal {told!r}")
    return refused
