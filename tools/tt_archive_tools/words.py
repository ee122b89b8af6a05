"""The words of a text, as docs/formats.md has them: maximal runs of letters, marks and numbers, and their keys.

The archive's own are those of the program's Unicode; where Python's is older, a run may be missed.
"""

from __future__ import annotations

import re
import unicodedata
from typing import Iterator

#: A run whose key has more bytes is no word.
MOST_KEY = 255


def key_of(run: str) -> str:
    """What is the same for all spellings of a word."""
    return unicodedata.normalize("NFD", unicodedata.normalize("NFD", run).casefold())


def runs(text: str) -> Iterator[re.Match[str]]:
    """The maximal runs, in order."""
    within = "".join(char for char in sorted(set(text)) if unicodedata.category(char)[0] in "LMN")
    return re.finditer(f"[{re.escape(within)}]+", text) if within else iter(())


def folded(name: str) -> str:
    """The name without marks, and without regard to case."""
    return "".join(char for char in key_of(name) if unicodedata.category(char)[0] != "M")
