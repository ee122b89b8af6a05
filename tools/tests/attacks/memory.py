"""Want of memory: each allocation of the program is refused in turn, by a small library that stands before the C library's."""

from __future__ import annotations

import os
import shutil
import subprocess
import tempfile
from dataclasses import dataclass
from pathlib import Path

from model import Outcome
from scripts import Folder

from attacks.rig import EXPORT, NO_MEMORY, SAMPLE, Whole, expect, follows, kinds, nothing, some

SOURCE = Path(__file__).with_name("refuse.c")
MOST = 2_000
#: Rounds of changes, batches, plans and questions, which ask for more than so many allocations.
LONG_SCRIPT = b"format 2\n" + b"".join(
    b"batch 3\narrive 4 %d 9\nred blue!\narrive 5 %d 9\nblue w%03d\ndelete 4 %d\n" % (time - 1, time - 1, time + 500, time)
    + b"arrive 1 %d 8\nred w%03d\narrive 2 %d 4\nblue\ndelete 1 %d\narrive 3 %d 8\nred blue\n" % (time, time, time + 1, time + 2, time + 3)
    + b"plan red guarantee 3/2\nplan blue space 2/1 uniform\nfind %d red or blue and not w%03d\n" % (time + 2, time)
    + b"between 5 %d blue not red\npropose red guarantee 1/1\ncertificate red\nverify\nshow 3 %d\nnonsense\n" % (time, time)
    + b"begin red guarantee 1/1\nbegin blue guarantee 1/1\n"
    + b"top 2 %d red or blue\nbest 2 %d red^2 or blue\nrough 1/4 %d blue\napprox red 1/2\nshare 2/1 red blue\n" % (time, time + 1, time)
    for time in range(10, 100, 10)
)


def build(folder: Path) -> Path | None:
    """The library, where there is a compiler."""
    compiler = shutil.which("cc")
    if compiler is None:
        return None
    library = folder / "refuse.so"
    subprocess.run([compiler, "-shared", "-fPIC", "-O1", "-o", library, SOURCE], check=True)
    return library


@dataclass(frozen=True)
class Refuser:
    """A program whose nth allocation is refused."""

    program: str
    library: Path

    def run(self, folder: Folder, nth: int, script: bytes = b"") -> tuple[Outcome, int]:
        """Runs a script; tells too how many allocations were asked for. None has the number 0."""
        counts = folder.path / "counts"
        environment = {**os.environ, "LD_PRELOAD": str(self.library), "REFUSE_AT": str(nth), "REFUSE_COUNTS": str(counts)}
        outcome = folder.run_as([self.program], script, env=environment)
        return outcome, int(counts.read_text())


def refuse_memory(program: str, audit: str, *, is_all: bool) -> str:
    """Each of the first allocations is refused, or for the gate some of them."""
    with tempfile.TemporaryDirectory() as place:
        library = build(Path(place))
        if library is None:
            return "want of memory was left out, since there is no C compiler"
        refuser = Refuser(program, library)
        runs = ((some, LONG_SCRIPT), (nothing, SAMPLE), (kinds, EXPORT), follows(program)[1])
        told = [_refuse(refuser, Whole.of(program, *run), is_all) for run in runs]
        audits = _refuse_audits(program, Refuser(audit, library))
    others = f"of a sample {told[1]} it ended, of an export {told[2]} it ended, of a follower {told[3]} it ended"
    return f"{told[0]} the run ended, {others}, and {audits} of audits"


def _refuse(refuser: Refuser, whole: Whole, is_all: bool) -> str:
    """Some allocations of a run are refused."""
    ended = 0
    with Folder(refuser.program) as folder:
        whole.fill(folder)
        outcome, asked = refuser.run(folder, 0, whole.script)
        expect(outcome == whole.outcome, f"a run that asks for {asked} allocations: {outcome}")
    most = min(MOST, asked)
    tried = range(1, most + 1) if is_all else [*range(1, 41), *range(41, most, 25)]
    for nth in tried:
        with Folder(refuser.program) as folder:
            whole.fill(folder)
            outcome, _ = refuser.run(folder, nth, whole.script)
            whole.check_cut(folder, outcome, [NO_MEMORY], f"allocation {nth} refused")
            ended += outcome.status == 12
    return f"{len(tried)} allocations of {asked} refused, at {ended} of which"


def _refuse_audits(program: str, refuser: Refuser) -> int:
    """Each allocation of an audit is refused."""
    with Folder(program) as folder:
        some(folder)
        whole, asked = refuser.run(folder, 0)
        expect(whole == Outcome(b"sound 2 2\n", "", 0), f"an audit: {whole}")
        for nth in range(1, asked + 1):
            outcome, _ = refuser.run(folder, nth)
            wanted = Outcome(b"", "tt_verify: no memory\n", 12)
            expect(outcome in (whole, wanted), f"allocation {nth} of an audit refused: {outcome}")
    return asked
