"""The first rows of words joined by `or`, by the blocks of stored sublists: how many of these may be opened for them."""

from __future__ import annotations

from dataclasses import dataclass

from .base import Differs
from .plans import Posting


@dataclass(frozen=True)
class Sheet:
    """What there is of a word at a time: the blocks of the sublist that has it, or else the postings that hold it."""

    weight: int
    blocks: list[list[Posting]]
    flat: list[Posting]

    def top(self, documents: range) -> int:
        """The most that a document among these may score by the word, as far as headers tell it."""
        tops = [max(it.frequency for it in block) for block in self.blocks if _meet(_range(block), documents)]
        return self.weight * max([*tops, *(it.frequency for it in self.flat)], default=0)


def test_opened(sheets: list[Sheet], scores: dict[int, int], shown: set[int], most: int, time: int, opened: int) -> int:
    """Holds that so many blocks may have been opened for the documents that are shown, at most so many, and tells how many there
    are. Each that has a posting of one of these documents at the time is opened, and none that is needless."""
    blocks = [block for sheet in sheets for block in sheet.blocks]
    wanted = sum(any(it.document in shown and it.start <= time < it.end for it in block) for block in blocks)
    allowed = sum(not _is_needless(block, sheets, scores, most) for block in blocks)
    if not wanted <= opened <= allowed:
        raise Differs(f"{opened} of {len(blocks)} blocks are opened, and at least {wanted} and at most {allowed} may be")
    return len(blocks)


def _is_needless(block: list[Posting], sheets: list[Sheet], scores: dict[int, int], most: int) -> bool:
    bound = sum(sheet.top(_range(block)) for sheet in sheets)
    return sum(document < block[0].document and score >= bound for document, score in scores.items()) >= most


def _range(block: list[Posting]) -> range:
    return range(block[0].document, block[-1].document + 1)


def _meet(one: range, other: range) -> bool:
    return one.start < other.stop and other.start < one.stop
