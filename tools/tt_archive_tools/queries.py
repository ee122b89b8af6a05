"""A query as a keeper wrote it: where it is at fault, what it doesn't say, and the words that count in its score."""

from __future__ import annotations

import re
import unicodedata
from typing import NamedTuple

from .wording import one_line
from .words import MOST_KEY, key_of, runs

_TOKEN = re.compile(r"[()]|[^ ()]+")
_OPERATORS = ("and", "or", "not")
#: A word with a weight from 1 to 1,000.
_WEIGHTED = re.compile(r"(.*)\^0*(?:[1-9][0-9]{0,2}|1000)\Z", re.DOTALL)
#: So many `not` and `(` may be open at once.
_MOST_OPEN = 64


class Token(NamedTuple):
    """A parenthesis, an operator or a word, and the character at which it begins."""

    text: str
    at: int

    @property
    def is_word(self) -> bool:
        return self.text not in ("(", ")", *_OPERATORS)


def tokens(query: str) -> list[Token]:
    return [Token(found[0], found.start()) for found in _TOKEN.finditer(query)]


def hints(query: str) -> list[str]:
    """Where a query that is one may be read otherwise than it was meant."""
    return [hint for token in tokens(query) for hint in [_hint(token)] if hint]


def _hint(token: Token) -> str:
    text = token.text
    if text.lower() in _OPERATORS and text.isupper():
        return f"{text} in capitals is a word to look for; the operator is written {text.lower()}"
    words = [found[0] for found in runs(text)]
    if not token.is_word or len(words) != 1 or words[0] == text:
        return ""
    word, only = words[0], f"of {text} only the word {words[0]} is looked for"
    if text == f"-{word}":
        return f"{only}: what lacks it is found by: not {word}"
    if '"' in text:
        return f"{only}, wherever it stands: there are no phrases"
    if "*" in text or "?" in text:
        return f"{only}: there are no wildcards"
    return f"{only}: there are no signs"


def fault_shown(query: str, byte: int) -> list[str]:
    """The query, and below the byte that is at fault a mark, and what is wrong there."""
    at = len(query.encode()[:byte].decode("utf-8", "ignore"))
    return [f"    {one_line(query)}", f"    {' ' * _width(one_line(query[:at]))}^ {_fault(query, at)}"]


def _fault(query: str, at: int) -> str:
    before = [token for token in tokens(query) if token.at < at]
    token = next((token for token in tokens(query) if token.at == at), None)
    word_due = not before or before[-1].text in ("(", *_OPERATORS)
    if token is None:
        return "a word is missing here" if word_due else "a ) is missing here"
    if token.text in (")", "and", "or"):
        return "a word is missing before this" if word_due else "no ( is open here"
    if not token.is_word:
        return f"more than {_MOST_OPEN} ( and not are open here"
    words = [found[0] for found in runs(token.text)]
    if len(words) == 1 and len(key_of(words[0]).encode()) > MOST_KEY:
        return f"this word is longer than {MOST_KEY} bytes"
    return f"this has {len(words)} words in it: write {' '.join(words)}" if words else "this has no word in it"


def _width(text: str) -> int:
    """How many columns the text takes on a terminal."""
    wide = sum(unicodedata.east_asian_width(char) in "WF" for char in text)
    return len(text) + wide - sum(unicodedata.category(char) in ("Mn", "Me", "Cf") for char in text)


def asked_keys(query: str) -> frozenset[str]:
    """The keys of all its words, also of those under `not`."""
    return frozenset(key for token in tokens(query) if token.is_word for key in term_keys(token.text))


def term_keys(token: str) -> set[str]:
    """The key of the word that a token is, without its weight."""
    found = [key_of(run[0]) for run in runs(token)]
    weighted = _WEIGHTED.match(token)
    if len(found) != 1 and weighted:
        found = [key_of(run[0]) for run in runs(weighted[1])]
    return set(found)


def scoring_keys(query: str) -> frozenset[str]:
    """The keys of the words that stand under an even number of `not`."""
    return frozenset(_Walk(query).either(counts=True))


class _Walk:
    """Down a query that is one."""

    def __init__(self, query: str) -> None:
        self._tokens = [token.text for token in tokens(query)]

    def either(self, counts: bool) -> set[str]:
        """Factors until a parenthesis closes, or the end."""
        found: set[str] = set()
        while self._tokens and self._tokens[0] != ")":
            if self._tokens[0] in ("and", "or"):
                self._tokens.pop(0)
            else:
                found |= self._factor(counts)
        return found

    def _factor(self, counts: bool) -> set[str]:
        token = self._tokens.pop(0) if self._tokens else ""
        if token == "not":
            return self._factor(not counts)
        if token == "(":
            found = self.either(counts)
            self._tokens[:1] = []
            return found
        return term_keys(token) if counts else set()
