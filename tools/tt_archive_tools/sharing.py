"""The command that proposes how the words of a log of questions best share one budget."""

from __future__ import annotations

import argparse
from dataclasses import dataclass

from .collection import Collection
from .errors import ToolError
from .locks import Use
from .opening import archive_of
from .planning import factor_of
from .questions import Asked, NoShares, ask, shares_of, told
from .wording import counted, say
from .words import key_of

#: So many words share a budget, and it is at most so many times their lists.
MOST_WORDS, MOST_FACTOR = 16, 16


@dataclass
class Proposal:
    """What a word's plans may take, in postings, over all archives; what the questions then read of it, and what they read without."""

    word: str
    asked: int
    key: str = ""
    full: int = 0
    share: int = 0
    read: int = 0
    without: int = 0

    @property
    def factor(self) -> str:
        """Rounded up to hundredths, so that the plan finds room."""
        hundredths = max(100, -(-100 * self.share // self.full))
        return f"{hundredths // 100}.{hundredths % 100:02}".rstrip("0").rstrip(".")


def share(options: argparse.Namespace) -> None:
    factor = factor_of(options.budget)
    if factor[0] > MOST_FACTOR * factor[1]:
        raise ToolError(f"{options.budget!r} is too much: a budget is at most {MOST_FACTOR} times the lists")
    if not 1 <= options.most <= MOST_WORDS or len(options.words) > MOST_WORDS:
        raise ToolError(f"from 1 to {MOST_WORDS} words share a budget")
    with archive_of(options, Use.ASKS_ALONE) as collection:
        asked = ask(collection, options.log)
        found, budget = proposals(collection, asked, factor, options.words, options.most)
        told(collection, asked)
    _show(options, found)
    if not options.tsv:
        read, without = sum(it.read for it in found), sum(it.without for it in found)
        taken = f"{counted(sum(it.share for it in found), 'posting')} of at most {budget}"
        print(f"{counted(len(asked.questions), 'question')}; {taken}; {read} read in place of {without}")


def proposals(collection: Collection, asked: Asked, factor: tuple[int, int], words: list[str], most: int) -> tuple[list[Proposal], int]:
    """For these words, or for so many that were asked most, what each gets of a budget; and the budget, in postings."""
    times = asked.times()
    lasts = collection.last_times()
    by_count = sorted(times, key=lambda key: (-len(times[key]), key))
    found: dict[str, Proposal] = {}
    for word in words or by_count:
        asked_for = times.get(key_of(word), [])
        proposal = Proposal(word, len(asked_for))
        if len(found) < most and _is_known(collection, proposal, asked_for, lasts):
            found.setdefault(proposal.key, proposal)
    if not found:
        raise ToolError("none of these words can be planned")
    budget = sum(_shared(collection, side, factor, found) for side in range(len(collection.shards)))
    return list(found.values()), budget


def _is_known(collection: Collection, proposal: Proposal, times: list[int], lasts: list[int | None]) -> bool:
    """Whether an archive can plan a word. Its key and the sizes of its lists are then noted."""
    left: list[NoShares] = []
    for side, last in enumerate(lasts):
        alone, refused = shares_of(collection, side, (1, 1), [proposal.word])
        left += refused
        if alone:
            size = alone.unit * alone.budget  # but for the rest of a unit
            proposal.key = alone.shares[0].key
            proposal.full += size
            proposal.without += size * sum(time < (last or 0) for time in times)
    if not proposal.full:
        say(f"{proposal.word} is left out: {left[0].why}")
    return bool(proposal.full)


def _shared(collection: Collection, side: int, factor: tuple[int, int], found: dict[str, Proposal]) -> int:
    """Adds what one of the archives gives the words, and answers its budget."""
    shares, _ = shares_of(collection, side, factor, [it.word for it in found.values()])
    for each in shares.shares if shares else ():
        found[each.key].share += each.charge * shares.unit
        found[each.key].read += each.cost
    return shares.unit * shares.budget if shares else 0


def _show(options: argparse.Namespace, found: list[Proposal]) -> None:
    rows = [[it.word, *map(str, (it.asked, it.full, it.share, it.factor, it.read, it.without))] for it in found]
    if options.tsv:
        for row in rows:
            print("\t".join(row))
        return
    heads = ["word", "asked", "postings", "share", "factor", "read", "without"]
    widths = [max(map(len, column)) for column in zip(heads, *rows)]
    for row in [heads, *rows]:
        print("  ".join(cell.ljust(width) for cell, width in zip(row, widths)).rstrip())
