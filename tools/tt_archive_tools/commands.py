"""Lines of a script, as bytes. Times are written as seconds."""

from __future__ import annotations

from typing import Sequence

from .errors import ToolError

#: A document number that the tools never give. Its deletion is always refused, and the refusal
#: tells the archive's last time.
NO_DOCUMENT = (1 << 32) - 1
#: A text of more bytes is refused.
MOST_TEXT = 4_194_304
#: A batch has at most so many changes, whose texts have at most so many bytes together.
MOST_OF_BATCH, MOST_BYTES_OF_BATCH = 1_000, 16_777_216
#: A line of more bytes breaks the script.
MOST_LINE = 4_096


def arrive(doc: int, time: int, text: bytes) -> bytes:
    return b"arrive %d %d %d\n%b\n" % (doc, time, len(text), text)


def delete(doc: int, time: int) -> bytes:
    return b"delete %d %d\n" % (doc, time)


def mark() -> bytes:
    return b"format 2\n"


def batch(lines: Sequence[bytes]) -> bytes:
    """Changes that come all at once, with one reply."""
    return b"batch %d\n%b" % (len(lines), b"".join(lines))


def show(doc: int, time: int) -> bytes:
    return b"show %d %d\n" % (doc, time)


def asks_for_batches() -> bytes:
    """A batch that every archive refuses, as its one item is the line of another: the reply says whether it may have batches.
    A program that doesn't know them answers both lines. So a question behind them tells where the replies end."""
    return b"batch 1\nbatch 1\n" + show(NO_DOCUMENT, 0)


def find(time: int, expr: str) -> bytes:
    return _line(f"find {time} {_words(expr)}")


def between(start: int, end: int, expr: str) -> bytes:
    return _line(f"between {start} {end} {_words(expr)}")


def plan(word: str, form: str) -> bytes:
    return _line(f"plan {_one_word(word)} {form}")


def propose(word: str, over: int, under: int) -> bytes:
    return _line(f"propose {_one_word(word)} guarantee {over}/{under}")


def certificate(word: str) -> bytes:
    return _line(f"certificate {_one_word(word)}")


def share(over: int, under: int, words: Sequence[str]) -> bytes:
    return _line(f"share {over}/{under} {' '.join(map(_one_word, words))}")


def verify() -> bytes:
    return b"verify\n"


def _words(expr: str) -> str:
    if not expr.strip(" "):
        raise ToolError("there are no words to find")
    return expr.strip(" ")


def _one_word(word: str) -> str:
    if not word or " " in word:
        raise ToolError(f"{word!r} isn't one word")
    return word


def _line(text: str) -> bytes:
    try:
        line = text.encode()
    except UnicodeEncodeError:
        raise ToolError(f"{text!r} isn't UTF-8") from None
    if b"\n" in line or b"\r" in line:
        raise ToolError("a question is one line")
    if len(line) > MOST_LINE:
        raise ToolError(f"a question has at most {MOST_LINE} bytes; this one has {len(line)}")
    return line + b"\n"
