"""The commands that tell of an archive as a whole: status and verify."""

from __future__ import annotations

import argparse
from typing import Sequence

from . import commands
from .errors import ToolError
from .journal import StoredPlan, summary
from .ledger import END, Ledger
from .ledger import FILE as LEDGER
from .locks import Use
from .opening import archive_of
from .replies import Verdict
from .times import show_time
from .wording import counted, one_line

#: The live plans of so many words are told by `status`.
_MOST_PLANS = 20


def status(options: argparse.Namespace) -> None:
    options.archive = options.folder or options.archive
    with archive_of(options, Use.ASKS) as collection:
        held = summary(collection.shards)
        names = len(collection.names)
        shards = collection.shards
        lines = Ledger(collection.folder / LEDGER).lines
    if len(shards) > 1:
        away = sum(not shard.is_here for shard in shards)
        apart = f", of which {away} on other machines aren't counted here" if away else ""
        print(f"shards     {len(shards)}{apart}")
    print(f"documents  {held.documents}, of which {held.alive} have a text now; {counted(names, 'name')}")
    kinds = ((held.arrivals, "version"), (held.deletions, "deletion"), (held.plans, "plan"))
    print("entries    " + ", ".join(counted(count, what) for count, what in kinds))
    if held.first is not None and held.last is not None:
        print(f"times      {show_time(held.first)} to {show_time(held.last)}")
    if len(shards) == 1 and held.entries:
        print(f"last       entry {held.entries}" + ("" if held.last is None else f", of {show_time(held.last)}"))
    print(f"files      {counted(held.journal, 'byte')} of journal, {counted(held.pages, 'byte')} of pages")
    for word, plans in list(held.live.items())[:_MOST_PLANS]:
        print(f"plan       {one_line(word)} {_live(plans)}")
    if len(held.live) > _MOST_PLANS:
        print(f"           and of {len(held.live) - _MOST_PLANS} words more")
    ends = {line.source: line for line in lines if not line.begins}
    for source, line in ends.items():
        how = "imported   {}, until {}" if line.kind == END else "refused    {}, at {}"
        print(how.format(source, "-" if line.last is None else show_time(line.last)))


def verify(options: argparse.Namespace) -> None:
    with archive_of(options, Use.ASKS) as collection:
        replies = collection.ask_all(commands.verify())
    words = segments = 0
    for reply in replies:
        if not isinstance(reply, Verdict):
            raise ToolError(f"the check was refused: {reply}")
        match reply.line.split():
            case ["sound", some, pieces]:
                words += int(some)
                segments += int(pieces)
            case fault:
                raise ToolError(_fault(fault))
    print(f"sound: {counted(words, 'word')} with a plan, {counted(segments, 'segment')}")


def _fault(told: Sequence[str]) -> str:
    """What a check found, and what mends it."""
    match told:
        case ["differs", word, segment, place, found, wanted]:
            what = f"byte {place} of its segment {segment} is {found}, and {wanted} is wanted (-- where it has none)"
        case ["notleast", word, kept, least]:
            what = f"it takes {kept} postings, and {least} would do"
        case ["badtext", doc, time]:
            return f"the text of #{doc} at {show_time(int(time))} isn't UTF-8"
        case _:
            return " ".join(told)
    return f"the plan of {one_line(word)} isn't as it should be: {what}; no version is lost, and `tt plan` stores it anew"


def _live(plans: Sequence[StoredPlan]) -> str:
    """A word's plans that stand, one of each shard that has one."""
    segments = counted(sum(plan.segments for plan in plans), "segment")
    until = show_time(max(plan.horizon for plan in plans))
    forms = " and ".join(sorted({plan.form for plan in plans}))
    return f"{forms}: {segments}, until {until}"
