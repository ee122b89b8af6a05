"""The words of texts, and queries, as docs/formats.md has them."""

from __future__ import annotations

import unicodedata
from collections import Counter
from dataclasses import dataclass
from typing import Callable, Iterator

MOST_KEY = 255
MOST_OPEN = 64
MOST_WEIGHT = 1_000


class BadQuery(Exception):
    """The query is none, which shows at this byte of it."""


@dataclass(frozen=True)
class Query:
    """Whether counts of words match, and how much each word scores: nothing where it stands under `not` alone."""

    matches: Callable[[Callable[[str], int]], bool]
    weights: dict[str, int]

    @property
    def words(self) -> frozenset[str]:
        return frozenset(self.weights)

    @property
    def positive(self) -> frozenset[str]:
        return frozenset(word for word, weight in self.weights.items() if weight)

    def score(self, count: Callable[[str], int]) -> int:
        return sum(weight * count(word) for word, weight in self.weights.items())


def fold(run: str) -> str:
    return unicodedata.normalize("NFD", unicodedata.normalize("NFD", run).casefold())


def runs(text: str) -> list[str]:
    spaced = "".join(char if unicodedata.category(char)[0] in "LMN" else " " for char in text)
    return spaced.split(" ")


def terms(text: str) -> Counter[str]:
    keys = (fold(run) for run in runs(text) if run)
    return Counter(key for key in keys if 1 <= len(key.encode()) <= MOST_KEY)


def one_term(text: str) -> str | None:
    found = [run for run in runs(text) if run]
    if len(found) != 1 or not 1 <= len(fold(found[0]).encode()) <= MOST_KEY:
        return None
    return fold(found[0])


def weighted(token: str) -> tuple[str, int] | None:
    """The word that a token is, and its weight."""
    key = one_term(token)
    word, mark, number = token.rpartition("^")
    if key is None and mark and number.isascii() and number.isdigit() and 1 <= int(number) <= MOST_WEIGHT:
        key = one_term(word)
        return (key, int(number)) if key else None
    return (key, 1) if key else None


def any_of(expr: str) -> bool:
    """Whether the query is one word, or words with one `or` between each and the next."""
    found = [token for _, token in _tokens(expr)]
    words = [token for token in found[::2] if token not in ("(", ")", "and", "or", "not")]
    return len(found) % 2 == 1 and len(words) == len(found[::2]) and all(token == "or" for token in found[1::2])


def parse(expr: str) -> Query:
    parser = _Parser(expr)
    query = parser.either(True, 0)
    parser.end()
    return query


def _tokens(expr: str) -> Iterator[tuple[int, str]]:
    data = expr.encode()
    at = 0
    while at < len(data):
        if data[at] in b" ":
            at += 1
        elif data[at] in b"()":
            yield at, chr(data[at])
            at += 1
        else:
            end = at
            while end < len(data) and data[end] not in b" ()":
                end += 1
            yield at, data[at:end].decode()
            at = end


class _Parser:
    """One token ahead; the first token that can't stand where it does is at fault."""

    def __init__(self, expr: str) -> None:
        self._tokens = [*_tokens(expr), (len(expr.encode()), "")]
        self._at = 0

    def _next(self) -> str:
        return self._tokens[self._at][1]

    def _fault(self) -> BadQuery:
        return BadQuery(self._tokens[self._at][0])

    def end(self) -> None:
        if self._next():
            raise self._fault()

    def either(self, positive: bool, depth: int) -> Query:
        query = self._both(positive, depth)
        while self._next() == "or":
            self._at += 1
            query = _join(query, self._both(positive, depth), any)
        return query

    def _both(self, positive: bool, depth: int) -> Query:
        query = self._factor(positive, depth)
        while self._next() not in ("", ")", "or"):
            if self._next() == "and":
                self._at += 1
            query = _join(query, self._factor(positive, depth), all)
        return query

    def _factor(self, positive: bool, depth: int) -> Query:
        token = self._next()
        if token in ("not", "("):
            if depth == MOST_OPEN:
                raise self._fault()
            self._at += 1
            if token == "not":
                inner = self._factor(not positive, depth + 1)
                return Query(lambda count: not inner.matches(count), inner.weights)
            query = self.either(positive, depth + 1)
            if self._next() != ")":
                raise self._fault()
            self._at += 1
            return query
        term = weighted(token) if token not in ("", ")", "and", "or") else None
        if term is None:
            raise self._fault()
        self._at += 1
        key, weight = term
        return Query(lambda count: count(key) > 0, {key: weight if positive else 0})


def _join(one: Query, other: Query, how: Callable[[Iterator[bool]], bool]) -> Query:
    return Query(
        lambda count: how(query.matches(count) for query in (one, other)),
        {word: max(one.weights.get(word, 0), other.weights.get(word, 0)) for word in one.weights | other.weights},
    )
