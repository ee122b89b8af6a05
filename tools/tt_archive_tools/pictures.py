"""The commands that draw: timeline and tradeoff."""

from __future__ import annotations

import argparse
import re
import sys
from pathlib import Path

from . import timeline, tradeoff
from .errors import ToolError
from .locks import Use
from .opening import archive_of
from .questions import ask, told


def draw_timeline(options: argparse.Namespace) -> None:
    with archive_of(options, Use.ASKS) as collection:
        line = timeline.gather(collection, options.word)
        picture = timeline.draw(line, collection)
        page = timeline.page(line, picture, collection) if options.html else ""
    if not line.exact:
        shown = f"the picture shows {len(line.costs)} times, and no change between them"
        print(f"tt: this tt_archive doesn't answer `between` yet: {shown}", file=sys.stderr)
    _write(options.output or _named_after(options.word), picture)
    if options.html:
        _write(options.html, page)


def draw_tradeoff(options: argparse.Namespace) -> None:
    with archive_of(options, Use.ASKS_ALONE if options.log else Use.ASKS) as collection:
        asked = ask(collection, options.log) if options.log else None
        picture = tradeoff.draw(tradeoff.gather(collection, options.word, asked))
        if asked:
            told(collection, asked)
    _write(options.output or _named_after(options.word), picture)


def _named_after(word: str) -> Path:
    return Path(re.sub(r"[^\w.-]", "_", word) + ".svg")


def _write(path: Path, content: str) -> None:
    try:
        path.write_text(content, encoding="utf-8")
    except OSError as error:
        raise ToolError(f"{path}: {error.strerror}") from None
    print(path)
