"""The commands that ask an archive for documents and texts: find, between and show."""

from __future__ import annotations

import argparse
import sys
from typing import NamedTuple

from . import commands
from .collection import Collection
from .errors import BadQuery, ToolError
from .found import Part, pieces
from .locks import Use, locked
from .names import FILE as NAMES
from .names import NameTable
from .opening import archive_of, claim_of
from .places import SHARDS, shards_of
from .program import find_program
from .queries import fault_shown, hints, scoring_keys
from .replies import Gone, Hit, Rows, Span, Text, merge_rows
from .shards import ask_with_parallel
from .times import parse_time, show_at, show_time
from .wording import counted, one_line


class _Answer(NamedTuple):
    """The rows of a question, the names of their documents, and by document the pieces of text with its words."""

    rows: Rows
    names: NameTable
    snippets: dict[int, list[list[Part]]]


def find(options: argparse.Namespace) -> None:
    at = parse_time(options.at)
    rows, names, snippets = _answer(options, commands.find(at, options.words), at)
    hits = [row for row in rows.rows if isinstance(row, Hit)]
    below = [snippets.get(row.doc, []) for row in hits]
    _show_rows(options, ("score", "document"), [(row.score, names.shown(row.doc)) for row in hits], below)
    if not options.tsv:
        print(f"{counted(len(hits), 'document')} {show_at(at)}; {counted(rows.read, 'posting')} read")


def between(options: argparse.Namespace) -> None:
    start, end = parse_time(options.start), parse_time(options.end)
    if start >= end:
        raise ToolError("the first time isn't before the second")
    rows, names, _ = _answer(options, commands.between(start, end, options.words), end)
    shown = [
        (show_time(row.start), show_time(row.end), row.score, names.shown(row.doc))
        for row in rows.rows
        if isinstance(row, Span)
    ]
    _show_rows(options, ("from", "to", "score", "document"), shown, [])
    if not options.tsv:
        window = f"from {show_time(start)} to {show_time(end)}"
        print(f"{counted(len(shown), 'span')} {window}; {counted(rows.read, 'posting')} read")


def show(options: argparse.Namespace) -> None:
    at = parse_time(options.at)
    with archive_of(options, Use.ASKS) as collection:
        doc = collection.names.number(options.name)
        shard = collection.shards[collection.side_of(doc)]
        reply = collection.ask_side(collection.side_of(doc), commands.show(doc, at))
    match reply:
        case Text(text=text):
            sys.stdout.buffer.write(text if text.endswith(b"\n") else text + b"\n")
        case Gone():
            from .documents import why_gone  # loaded where it is needed

            raise ToolError(f"{options.name} has no text {show_at(at)}{why_gone(shard, doc, at)}")
        case _:
            raise ToolError(f"the question was refused: {reply}")


def _answer(options: argparse.Namespace, question: bytes, at: int) -> _Answer:
    """The answer to a question, and what it doesn't say by itself."""
    query = options.words.strip(" ")
    try:
        answer = _parallel(options, question) if options.parallel or options.sshlogin else _asked(options, question, at)
    except BadQuery as fault:
        raise ToolError("what is asked is no query", fault_shown(query, fault.byte)) from None
    for hint in hints(query):
        print(f"tt: {one_line(hint)}", file=sys.stderr)
    return answer


def _asked(options: argparse.Namespace, question: bytes, at: int) -> _Answer:
    with archive_of(options, Use.ASKS) as collection:
        rows = collection.ask_rows(question)
        found: dict[int, list[list[Part]]] = {}
        if options.snippets:
            keys = scoring_keys(options.words)
            for row in rows.rows[: options.limit or None]:
                reply = collection.ask_side(collection.side_of(row.doc), commands.show(row.doc, at))
                if isinstance(reply, Text):
                    found[row.doc] = pieces(reply.text.decode("utf-8", "replace"), keys)
        return _Answer(rows, collection.names, found)


def _parallel(options: argparse.Namespace, question: bytes) -> _Answer:
    if not (options.archive / SHARDS).exists():
        raise ToolError(f"{options.archive} isn't split: `tt shard` does so")
    if options.snippets:
        raise ToolError("GNU parallel asks one question, and pieces of text are more: leave out --snippets or --parallel")
    command = find_program(options.program)
    with locked(options.archive, claim_of(options, Use.ASKS)) as lock:
        replies = ask_with_parallel(shards_of(options.archive), command, options.sshlogin, question, lock)
        names = NameTable(options.archive / NAMES)
    return _Answer(merge_rows(Collection.rows_of(reply) for reply in replies), names, {})


def _show_rows(
    options: argparse.Namespace,
    heads: tuple[str, ...],
    rows: list[tuple[object, ...]],
    below: list[list[list[Part]]],
) -> None:
    """The rows in columns, each with the pieces of text that stand below it."""
    if options.limit > 0:
        rows = rows[: options.limit]
    cells = [[str(cell) for cell in row] for row in rows]
    lines = [[_marked(piece) for piece in some] for some in below] or [[] for _ in rows]
    if options.tsv:
        for row, some in zip(cells, lines):
            print("\t".join([*row, *([" ".join(some)] if options.snippets else [])]))
        return
    widths = [max(map(len, column)) for column in zip(heads, *cells)]
    indent = " " * (sum(widths[:-1]) + 2 * (len(widths) - 1))
    for row, some in zip([list(heads), *cells] if cells else [], [[], *lines]):
        print("  ".join(cell.ljust(width) for cell, width in zip(row, widths)).rstrip())
        for line in some:
            print(f"{indent}  {line}")


def _marked(piece: list[Part]) -> str:
    """A piece of text on one line. On a terminal its words are bold."""
    bold = sys.stdout.isatty()
    return "".join(f"\x1b[1m{part.text}\x1b[0m" if part.found and bold else one_line(part.text) for part in piece)
