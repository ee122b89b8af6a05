"""Deaths at random moments: the program is killed while it works, again and again on one archive."""

from __future__ import annotations

import os
import random
import subprocess
import time
from collections import Counter

from model import STINT_PAGES, Choice, Differs, NotArchive, Outcome, items, read_journal, spell_journal, words_of
from scripts import Folder

from attacks.rig import STREAMS, Whole, Wrong, acknowledged, expect, nothing

#: How many programs are killed, and for the gate how many samples.
DEATHS, SAMPLES = 500, 40
#: Of documents that come twice.
LONG_SAMPLE = b"--generate 7 --count 400\n"
KILLED = Outcome(b"", "", -9)
COMMANDS = 300
MOST_SECONDS = 0.0005
CHANGES = (b"arrive", b"delete", b"plan", b"begin", b"batch")
#: After so many entries the next archive is begun, since the model plans slowly.
MOST_ENTRIES = 80


def kill_programs(program: str, audit: str, *, is_all: bool) -> str:
    """Kills the program at random moments of its work."""
    processors, samples = os.sched_getaffinity(0), DEATHS if is_all else SAMPLES
    os.sched_setaffinity(0, {min(processors)})  # (both on one processor, so that the program works just while this one sleeps)
    try:
        told, amid = _killed_often(program), _killed_samples(program, samples)
    finally:
        os.sched_setaffinity(0, processors)
    deaths = f"{told.total()} deaths at random moments, {told['amid']} of them amid changes"
    return f"{deaths}, and {samples} of samples, {amid} of them amid theirs"


def _killed_samples(program: str, deaths: int) -> int:
    """How many samples died amid their entries."""
    chance, whole, amid = random.Random(7), Whole.of(program, nothing, LONG_SAMPLE), 0
    length = len(spell_journal(whole.entries))
    for number in range(deaths):
        with Folder(program) as folder:
            with subprocess.Popen([program, *words_of(LONG_SAMPLE)], cwd=folder.path, **STREAMS) as process:
                reached = chance.randrange(length)
                while process.poll() is None and len(folder.files()[0]) < reached:
                    time.sleep(MOST_SECONDS / 5 * chance.random())
                process.kill()
                shown, line = process.communicate()
            entries = read_journal(folder.files()[0])
            outcome = Outcome(shown, line.decode(), process.returncode)
            whole.check_cut(folder, outcome, [KILLED], f"death {number} of a sample")
            amid += 0 < len(entries) < len(whole.entries)
    return amid


def _killed_often(program: str) -> Counter[str]:
    """How often the program died before, amid or behind the changes of its script."""
    chance, told = random.Random(7), Counter[str]()
    while told.total() < DEATHS:
        with Folder(program) as folder:
            if chance.randrange(3):
                expect(not (difference := folder.difference(b"format 2\n")), f"the mark: {difference}")
            while told.total() < DEATHS and len(folder.archive.entries) < MOST_ENTRIES:
                told[_killed(folder, chance)] += 1
            folder.was_cut = True
            difference = folder.difference(_questions(folder))
            expect(not difference, f"a run after a death: {difference}")
    return told


def _questions(folder: Folder) -> bytes:
    """What shows what is there."""
    last = folder.archive.last
    lines = [b"find %d red or blue\n" % max(0, last - 3), b"between 0 %d red not blue\n" % (last + 1)]
    return b"".join([*lines, *(b"show %d %d\n" % (document, last) for document in range(1, 4)), b"verify\n"])


def _changes(folder: Folder, chance: random.Random) -> bytes:
    """Changes, batches of them and plans, most of which are allowed. Some plans are written in steps."""
    last, lines = folder.archive.last, []
    for _ in range(COMMANDS):
        last += 1
        document, kind = chance.randint(1, 6), chance.randrange(40)
        if kind < 22:
            lines.append(_arrival(document, last, chance))
        elif kind < 30:
            count = chance.randint(1, 9)
            acts = (_arrival(chance.randint(1, 6), last + at, chance) for at in range(count))
            lines.append(b"batch %d\n" % count + b"".join(acts))
            last += count
        elif kind < 38:
            lines.append(b"delete %d %d\n" % (document, last))
        elif kind == 38:
            lines.append(chance.choice([b"plan red guarantee 3/2\n", b"plan red guarantee 1/1\n", b"plan blue space 2/1 uniform\n"]))
        else:
            lines.append(chance.choice([b"begin red guarantee 1/1\n", b"begin red guarantee 1/1\n", b"begin blue guarantee 3/2\n"]))
    return b"".join(lines)


def _arrival(document: int, time: int, chance: random.Random) -> bytes:
    text = b" ".join(chance.choices([b"red", b"blue", b"sand"], [3, 1, 20], k=chance.randint(0, 3)))
    return b"arrive %d %d %d\n%b\n" % (document, time, len(text), text)


def _killed(folder: Folder, chance: random.Random) -> str:
    """Runs a script whose input doesn't end, kills the program soon after it was given the changes, and holds what it showed and left
    against the model. (Some are given all at once, so that they may die in their load.) Tells whether it died before the first
    change, amid the changes or behind them."""
    questions, changes = _questions(folder), _changes(folder, chance)
    with subprocess.Popen([folder.program], cwd=folder.path, bufsize=0, **STREAMS) as process:
        process.stdin.write(questions)
        shown, before, is_loaded = b"", len(folder.archive.entries), chance.randrange(16) > 0
        while is_loaded and b"sound " not in shown:
            shown += os.read(process.stdout.fileno(), 1 << 16)
        process.stdin.write(changes)
        time.sleep(MOST_SECONDS * chance.random())
        process.kill()
        rest, line = process.communicate()
    shown += rest
    try:
        expect(process.returncode == -9 and not line, f"the program ends with {process.returncode} and {line!r}")
        is_whole = _go_on(folder, questions + changes, shown)
    except (Wrong, Differs, NotArchive) as wrong:
        script = questions + changes
        raise Wrong(f"{type(wrong).__name__}: {wrong}\nThe script was {script!r},\nand shown was {shown!r}") from None
    return "behind" if is_whole else "before" if len(folder.archive.entries) == before else "amid"


def _go_on(folder: Folder, script: bytes, shown: bytes) -> bool:
    """Brings the model to where the program came: what it showed is a front of the model's replies, and its journal has each entry that
    was acknowledged and at most one more. Tells whether it came to the end of the script."""
    archive, replies, archive.job = folder.archive, b"", None
    entries = [entry for _, entry in read_journal(folder.journal.read_bytes() if folder.journal.exists() else b"")]
    count = max(len(archive.entries), acknowledged(shown))
    expect(count <= len(entries) <= count + 1, f"{count} entries were acknowledged, and the journal has {len(entries)}")
    for item in items(script):
        is_at_end, is_change = len(archive.entries) == len(entries) and len(replies) >= len(shown), item.words[0] in CHANGES
        if is_at_end and is_change:
            break
        was_at_work = archive.job is not None
        replies += archive.shown_of(item, Choice(entries, shown[len(replies) :]))
        if was_at_work and archive.job.plan is None and archive.job.left <= STINT_PAGES:
            break
        replies += archive.stint() if was_at_work else b""
    else:
        item = None
    expect(archive.entries == entries, f"the journal's entries aren't the model's: {[it.hex() for it in entries]}")
    expect(replies.startswith(shown), f"what is shown is no front of {replies!r}")
    return item is None
