"""Words and queries."""

from __future__ import annotations

import re
import unicodedata
from collections import Counter
from itertools import groupby
from typing import NoReturn

from .base import MOST_KEY, MOST_OPEN, MOST_WEIGHT, Refused


def _runs(text: str) -> list[str]:
    """The longest runs of letters, marks and numbers, caseless."""
    runs = ["".join(run) for is_word, run in groupby(text, lambda it: unicodedata.category(it)[0] in "LMN") if is_word]
    return [unicodedata.normalize("NFD", unicodedata.normalize("NFD", run).casefold()) for run in runs]


def keys(text: str) -> list[str]:
    """The words of a text, by their keys: the runs of 1 to 255 bytes."""
    return [run for run in _runs(text) if len(run.encode()) <= MOST_KEY]


def one_key(word: str) -> str | None:
    """The key of what is one word: it has one run, which is a word."""
    return keys(word)[0] if len(_runs(word)) == len(keys(word)) == 1 else None


def asks_for_any(asked: bytes) -> bool:
    """Whether a query's tokens are one word, or words with one `or` between each and the next."""
    found = re.findall(rb"[()]|[^ ()]+", asked)
    words = [it for it in found[::2] if it not in (b"(", b")", b"and", b"or", b"not")]
    return len(found) % 2 == 1 and words == found[::2] and set(found[1::2]) <= {b"or"}


class Query:
    """A tree of `("not", tree)`, `("and", trees)`, `("or", trees)` and `("word", key)`, and the weight of each word."""

    def __init__(self, asked: bytes) -> None:
        self._tokens = [(it.start(), it.group().decode()) for it in re.finditer(rb"[()]|[^ ()]+", asked)]
        self._tokens.append((len(asked), ""))
        self._at = 0
        self.weights: dict[str, int] = {}
        self.tree = self._either(0, True)
        if self._token():
            self._refuse()

    def _token(self) -> str:
        """The next token; there is none at the end."""
        return self._tokens[self._at][1]

    def _refuse(self) -> NoReturn:
        raise Refused(f"11 BadQuery {self._tokens[self._at][0]}")

    def _either(self, opened: int, is_counted: bool) -> tuple:
        trees = [self._both(opened, is_counted)]
        while self._token() == "or":
            self._at += 1
            trees.append(self._both(opened, is_counted))
        return "or", trees

    def _both(self, opened: int, is_counted: bool) -> tuple:
        trees = [self._factor(opened, is_counted)]
        while self._token() not in ("", "or", ")"):
            self._at += self._token() == "and"
            trees.append(self._factor(opened, is_counted))
        return "and", trees

    def _factor(self, opened: int, is_counted: bool) -> tuple:
        token = self._token()
        if token in ("not", "("):
            if opened == MOST_OPEN:
                self._refuse()
            self._at += 1
            if token == "not":
                return "not", self._factor(opened + 1, not is_counted)
            tree = self._either(opened + 1, is_counted)
            if self._token() != ")":
                self._refuse()
            self._at += 1
            return tree
        key, weight = one_key(token), 1
        before, mark, number = token.rpartition("^")
        if key is None and mark and re.fullmatch("[0-9]+", number) and 1 <= int(number) <= MOST_WEIGHT:
            key, weight = one_key(before), int(number)
        if token in ("and", "or", ")", "") or key is None:
            self._refuse()
        self._at += 1
        self.weights[key] = max(self.weights.get(key, 0), weight if is_counted else 0)
        return "word", key

    @property
    def words(self) -> list[str]:
        """The distinct words, in the order in which they stand first."""
        return list(self.weights)

    def score(self, counts: Counter[str] | None) -> int | None:
        """The score of a text that has words so often; none where it doesn't match, or there is no text."""
        if counts is None or not _matches(self.tree, counts):
            return None
        return sum(counts[key] * weight for key, weight in self.weights.items())


def _matches(tree: tuple, counts: Counter[str]) -> bool:
    kind, of = tree
    if kind == "word":
        return counts[of] > 0
    if kind == "not":
        return not _matches(of, counts)
    return (all if kind == "and" else any)(_matches(it, counts) for it in of)
