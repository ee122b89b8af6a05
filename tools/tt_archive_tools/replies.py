"""The program's replies: what each says, and reading them one after another.

A reply shows by itself where it ends, so they can be read without knowing what was asked.
"""

from __future__ import annotations

from dataclasses import dataclass
from typing import Iterable, Iterator, NamedTuple, Union

from .errors import ProgramFailed


class Ok(NamedTuple):
    """A change was carried out; the history has so many entries now."""

    length: int


class Refused(NamedTuple):
    """A command was refused, and changed nothing."""

    number: int
    name: str
    detail: str

    def __str__(self) -> str:
        return f"{self.name} {self.detail}".rstrip()

    @property
    def item(self) -> int | None:
        """The item of a batch, or the word of shares, that is refused, counted from 1; None where all is refused."""
        words = self.detail.split()
        return int(words[-1]) if words[-2:-1] == ["in"] else None

    @property
    def alone(self) -> Refused:
        """The refusal that the item or the word has by itself."""
        return self if self.item is None else self._replace(detail=" ".join(self.detail.split()[:-2]))

    @property
    def meaning(self) -> str:
        """What a plan's refusal says to a keeper."""
        match self.name:
            case "NotOneTerm":
                return "that isn't one word"
            case "UnknownWord":
                return "no text has the word"
            case "NothingSealed":
                return "the word came only at the archive's last time, and a plan is of what lies before it"
            case "TooWide":
                return f"its list has {self.detail} boundaries, and a plan is of at most 1048576"
        return str(self)


class Hit(NamedTuple):
    """A document found as of a time."""

    doc: int
    score: int


class Span(NamedTuple):
    """A document found from one time until another, with one score."""

    doc: int
    start: int
    end: int
    score: int


class Rows(NamedTuple):
    """The rows of a query, and how many postings were read for them."""

    rows: tuple[Union[Hit, Span], ...]
    read: int


class Text(NamedTuple):
    """The text of a document, as bytes of UTF-8."""

    text: bytes


@dataclass(frozen=True)
class Gone:
    """The document isn't alive at that time."""


class Segment(NamedTuple):
    """A piece of a plan's time line and the size of its sublist, in postings."""

    start: int
    end: int
    size: int


class Pieces(NamedTuple):
    """A plan with its certificate: segments, boundaries with the least space up to each, space."""

    segments: tuple[Segment, ...]
    nodes: tuple[tuple[int, int], ...]
    space: int


class Planned(NamedTuple):
    """A plan was stored. The full list is the word's list clipped to times below the horizon."""

    length: int
    segments: int
    space: int
    full: int
    horizon: int
    cost: int | None


class Share(NamedTuple):
    """What a word's plan takes of a budget, in its units, and how many postings the questions read of it that were asked."""

    key: str
    charge: int
    cost: int


class Shares(NamedTuple):
    """How a budget of so many units, of so many postings each, is best shared."""

    shares: tuple[Share, ...]
    unit: int
    budget: int
    cost: int


class Verdict(NamedTuple):
    """What the archive's checker says."""

    line: str


Reply = Union[Ok, Refused, Rows, Text, Gone, Pieces, Planned, Shares, Verdict]


class ReplyReader:
    """Cuts what a program prints into replies, piece by piece."""

    def __init__(self) -> None:
        self._rest = b""
        self._rows: list[Hit | Span] = []
        self._segments: list[Segment] = []
        self._nodes: list[tuple[int, int]] = []
        self._shares: list[Share] = []

    def replies(self, piece: bytes) -> Iterator[Reply]:
        """The replies that are whole with the next piece."""
        printed = self._rest + piece
        start = 0
        while end := printed.find(b"\n", start) + 1:
            line = printed[start:end]
            try:
                if line.startswith(b"ok "):  # most of what is printed
                    reply: Reply | None = Ok(int(line[3:]))
                elif line.startswith((b"span ", b"hit ")):  # and what is printed most of answers
                    self._rows.append(_row(line))
                    reply = None
                elif line.startswith(b"text "):
                    size = int(line[5:])
                    if len(printed) <= end + size:
                        break
                    reply = Text(printed[end : end + size])
                    end += size + 1
                else:
                    reply = self._reply(line.decode("utf-8", "replace").split())
            except ValueError:
                raise ProgramFailed(f"tt_archive answered what is no reply: {line!r}") from None
            start = end
            if reply:
                yield reply
        self._rest = printed[start:]

    def end(self) -> None:
        """Nothing more will be printed."""
        if self._rest or self._rows or self._segments or self._nodes or self._shares:
            raise ProgramFailed("tt_archive's last reply isn't whole")

    def _reply(self, words: list[str]) -> Reply | None:
        """The reply that ends with a line of these words; None where more lines follow."""
        match words:
            case ["segment", start, end, size]:
                self._segments.append(Segment(int(start), int(end), int(size)))
            case ["node", time, space]:
                self._nodes.append((int(time), int(space)))
            case ["share", key, charge, cost]:
                self._shares.append(Share(key, int(charge), int(cost)))
            case ["end", _, "unit", unit, "budget", budget, "cost", cost]:
                shares, self._shares = self._shares, []
                return Shares(tuple(shares), int(unit), int(budget), int(cost))
            case ["end", _, "read", read]:
                rows, self._rows = self._rows, []
                return Rows(tuple(rows), int(read))
            case ["end", _, "space", space]:
                segments, nodes, self._segments, self._nodes = self._segments, self._nodes, [], []
                return Pieces(tuple(segments), tuple(nodes), int(space))
            case _:
                return _one_line(words)
        return None


def _row(line: bytes) -> Hit | Span:
    kind, *numbers = line.split()
    if len(numbers) != (4 if kind == b"span" else 2):
        raise ValueError(line)
    return Span._make(map(int, numbers)) if kind == b"span" else Hit._make(map(int, numbers))


def _one_line(words: list[str]) -> Reply:
    match words:
        case ["none"]:
            return Gone()
        case ["no", number, name, *detail]:
            return Refused(int(number), name, " ".join(detail))
        case ["plan", length, "segments", s, "space", p, "full", f, "horizon", h, *rest]:
            cost = int(rest[1]) if rest[:1] == ["cost"] else None
            return Planned(int(length), int(s), int(p), int(f), int(h), cost)
        case ["sound" | "differs" | "notleast" | "badtext", *_]:
            return Verdict(" ".join(words))
    raise ValueError(words)


def merge_rows(parts: Iterable[Rows]) -> Rows:
    """The rows of archives that share no document, as one archive of all of them gives them.

    A row tells of one document alone, so each row stands in exactly one of the parts; only the
    order has to be made: hits by score descending and then by document, spans by document and
    start. `read` is the sum.
    """
    parts = list(parts)
    rows = [row for part in parts for row in part.rows]
    rows.sort(key=lambda row: (-row.score, row.doc) if isinstance(row, Hit) else (row.doc, row.start))
    return Rows(tuple(rows), sum(part.read for part in parts))
