"""A log of questions: what it asks for, and a run that is asked all of it, so that shares go by it."""

from __future__ import annotations

import re
import sys
from dataclasses import dataclass
from pathlib import Path
from typing import NamedTuple

from . import commands
from .collection import Collection
from .errors import ProgramFailed, ToolError
from .program import Shard
from .queries import asked_keys
from .replies import Refused, Reply, Shares
from .times import NOW, parse_stamp
from .wording import counted, say

#: As a script asks. The first rows alone rest on what `find` reads, too.
_LINE = re.compile(r" *(?:find|(?:top|best) +[0-9]+) +([0-9]+|[0-9]{4}-[0-9]{2}-[0-9]{2}) +(\S.*?) *\Z")


class Question(NamedTuple):
    """What was asked for, at a time."""

    time: int
    query: str


@dataclass(frozen=True)
class Asked:
    """The questions of a log that were answered, how many lines ask for nothing or were refused, and which places were asked."""

    questions: tuple[Question, ...]
    skipped: int
    refused: int
    places: tuple[Shard, ...]

    def times(self) -> dict[str, list[int]]:
        """By its key, the times for which each word was asked, in order."""
        found: dict[str, list[int]] = {}
        for time, query in sorted(self.questions):
            for key in asked_keys(query):
                found.setdefault(key, []).append(time)
        return found


class NoShares(NamedTuple):
    """Why a word has no share in one of the archives."""

    word: str
    why: str


def read_log(path: Path) -> tuple[list[Question], int]:
    """The questions of a log, and how many lines ask for nothing."""
    data = sys.stdin.buffer.read() if path == Path("-") else path.read_bytes()
    lines = [line.removesuffix(b"\r") for line in data.split(b"\n")]
    lines = [line for line in lines if line.strip(b" ") and not line.startswith(b"#")]
    found = [question for line in lines for question in [_question(line)] if question]
    return found, len(lines) - len(found)


def _question(line: bytes) -> Question | None:
    try:
        asks = _LINE.match(line.decode())
    except UnicodeDecodeError:
        return None
    time = _time(asks[1]) if asks else None
    return Question(time, asks[2]) if asks and time is not None and len(line) <= commands.MOST_LINE else None


def _time(word: str) -> int | None:
    """A time as a script has it."""
    seconds = parse_stamp(word) if "-" in word else int(word)
    return seconds if seconds is not None and 0 <= seconds < NOW else None


def ask(collection: Collection, path: Path) -> Asked:
    """Asks this run all questions of a log. It has to be a run of its own, as what others ask counts for shares, too."""
    questions, skipped = read_log(path)
    places = tuple(collection.asked_places())
    refused: set[int] = set()

    def note(number: int, reply: Reply) -> None:
        if isinstance(reply, Refused):
            refused.add(number)

    for number, question in enumerate(questions):
        line = commands.find(*question)
        for side in range(len(collection.shards)):
            collection.send(side, line, [number], note)
    collection.settle()
    answered = tuple(question for number, question in enumerate(questions) if number not in refused)
    if not answered:
        raise ToolError(f"{path} has no question that is answered: its lines are to be `find TIME QUERY`, as in a script")
    return Asked(answered, skipped, len(refused), places)


def told(collection: Collection, asked: Asked) -> None:
    """Names what didn't count. An error where a copy was asked for shares that wasn't asked the log."""
    if tuple(collection.asked_places()) != asked.places:
        raise ToolError("a place was lost, and its copy wasn't asked the whole log: the same command asks anew")
    if asked.skipped:
        say(f"{counted(asked.skipped, 'line')} of the log {'asks' if asked.skipped == 1 else 'ask'} for nothing that counts")
    if asked.refused:
        say(f"{counted(asked.refused, 'question')} of the log {'is' if asked.refused == 1 else 'are'} no query")


def shares_of(collection: Collection, side: int, factor: tuple[int, int], words: list[str]) -> tuple[Shares | None, list[NoShares]]:
    """How one of the archives shares a budget among those words that it can plan; and why it can't plan the others."""
    left: list[NoShares] = []
    words = [*words]
    while words:
        reply = collection.ask_side(side, commands.share(*factor, words))
        if isinstance(reply, Shares):
            return reply, left
        if not isinstance(reply, Refused) or not reply.item:
            raise ProgramFailed(f"tt_archive answered {reply} to a question for shares")
        left.append(NoShares(words.pop(reply.item - 1), reply.alone.meaning))
    return None, left
