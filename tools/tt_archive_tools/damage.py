"""What a program that ended has said, as a keeper needs it."""

from __future__ import annotations

import re
import signal

from .errors import ToolError
from .journal import StoredPlan, live_plans, pages_size
from .program import Shard
from .wording import one_line

_DAMAGED = re.compile(r"tt_archive: damaged sublist at page (\d+): (\w+)")
#: What is wrong with a sublist, by the word of the status line.
_CAUSES = {
    "digest": "its bytes aren't those that were stored",
    "form": "its bytes spell no list",
    "astray": "a posting of it lies outside its segment",
    "bare": "it is a first segment's, and has no posting",
    "clash": "a posting of it contradicts one of an earlier segment",
}


def killed(status: int) -> str:
    """That a signal ended the program, and what then holds; nothing where none did. A shell adds 128 to the signal."""
    number = -status if status < 0 else status - 128
    if number not in {each.value for each in signal.Signals}:
        return ""
    memory = ", as the system does where memory is short" if number == signal.SIGKILL else ""
    return (
        f"tt_archive was killed (signal {number}, {signal.Signals(number).name}){memory}; what was acknowledged is in the "
        "archive, and the same command goes on from there"
    )


def explained(said: str, shard: Shard) -> str:
    """The status line of an archive's program. Of damage also what is wrong, and what mends it."""
    if not said.startswith("tt_archive: "):
        return said
    plans = _plans(shard)
    reach = max((plan.end for plan in plans), default=0)
    if "tt_archive: not an archive" in said and pages_size(shard.folder) < reach:
        return (
            f"archive.pages is shorter than the plans that stand reach, which is {reach} bytes; no version is lost: "
            f"`truncate -s {reach} archive.pages` opens the archive, and `tt plan` of each planned word stores it anew"
        )
    damage = _DAMAGED.search(said)
    if not damage:
        return said
    page, cause = int(damage[1]), damage[2]
    plan = next((plan for plan in plans if page in plan.pages), None)
    whose = f", of the plan of {one_line(plan.word)}" if plan else ""
    anew = f"plan {one_line(plan.word)} {plan.form}" if plan else "plan"
    return (
        f"damaged sublist at page {page} of archive.pages{whose}: {_CAUSES.get(cause, 'unknown')} ({cause}); "
        f"no version is lost, and `tt {anew}` stores its sublists anew"
    )


def _plans(shard: Shard) -> list[StoredPlan]:
    """The plans that stand, where the journal is here and can be read."""
    if not shard.is_here:
        return []
    try:
        return list(live_plans(shard.folder).values())
    except ToolError:
        return []
