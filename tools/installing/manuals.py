"""The manual pages, made of the documents, so that they can't differ."""

from __future__ import annotations

import argparse
import re
from pathlib import Path
from typing import Iterator, Sequence

from tt_archive_tools.cli import parser

from .roff import Roff, heading

DOCS = Path(__file__).resolve().parents[2] / "docs"
_SECTION = re.compile(r"^## ", re.M)
#: The documents that are pages.
_NAMES = {"`docs/manual.md`": "`tt_archive(1)`", "`docs/formats.md`": "`tt_archive(5)`", "`docs/keepers.md`": "`tt(1)`"}
_ABOUT = {
    "tt_archive.1": "keeps texts with their times, and answers what was so then",
    "tt_verify.1": "checks what an archive stores",
    "tt.1": "fills a time-travel text archive, asks it, and serves it",
    "tt_archive.5": "the files of an archive, the script and its replies",
}
_SYNOPSIS = {
    "tt_archive.1": ["tt_archive < SCRIPT", "tt_archive --generate SEED --count COUNT", "tt_archive --export FROM", "tt_archive --follow < PACKETS"],
    "tt_verify.1": ["tt_verify"],
    "tt.1": ["tt [-C FOLDER] [--program WORDS] [--wait TIME] [-q] COMMAND .."],
    "tt_archive.5": [],
}
_ALSO = {
    "tt_archive.1": ["tt_verify(1)", "tt(1)", "tt_archive(5)"],
    "tt_verify.1": ["tt_archive(1)", "tt_archive(5)"],
    "tt.1": ["tt_archive(1)", "tt_archive(5)"],
    "tt_archive.5": ["tt_archive(1)", "tt_verify(1)"],
}


def manuals() -> dict[str, str]:
    """The pages by name, such as `tt.1`."""
    return {
        "tt_archive.1": _page("tt_archive.1", _read("manual.md")),
        "tt_verify.1": _page("tt_verify.1", sections(_read("manual.md"), ("The audit", "One program in a folder"))),
        "tt.1": _page("tt.1", _read("keepers.md")),
        "tt_archive.5": _page("tt_archive.5", _read("formats.md")),
    }


def _read(name: str) -> str:
    """A document without its title; the documents that are pages are named as such."""
    text = (DOCS / name).read_text(encoding="utf-8").partition("\n")[2]
    for was, now in _NAMES.items():
        text = text.replace(was, now)
    return text


def sections(text: str, titles: Sequence[str]) -> str:
    """Some sections of a document, in this order."""
    found = {part.partition("\n")[0]: part for part in _SECTION.split(text)[1:]}
    return "".join(f"## {found[title]}" for title in titles)


def _page(name: str, text: str) -> str:
    title, section = name.split(".")
    roff = Roff()
    roff.line(heading(title, section))
    roff.section("Name")
    roff.line(f"{title} \\- {_ABOUT[name]}")
    if _SYNOPSIS[name]:
        roff.section("Synopsis")
        roff.code(_SYNOPSIS[name])
    roff.section("Description")
    before, *rest = _SECTION.split(text, maxsplit=1)
    roff.markdown(before)
    if name == "tt.1":
        roff.section("Commands")
        _commands(roff)
    for part in rest:
        roff.markdown(f"## {part}")
    roff.section("See also")
    roff.line(", ".join(f"\\fB{it[:-3]}\\fR{it[-3:]}" for it in _ALSO[name]))
    return roff.text()


def _commands(roff: Roff) -> None:
    """Each command with its words and options, as `tt --help` has them."""
    for words, command in commands_of(parser()):
        usage = " ".join(command.format_usage().split()).removeprefix("usage: ").replace(" [-h]", "")
        roff.subsection(words or "tt")
        roff.code([usage])
        roff.paragraph((command.description or "").replace("\n", " "))
        for action in command._actions:
            if action.help and action.dest != "help" and not isinstance(action, argparse._SubParsersAction):
                names = ", ".join(action.option_strings)
                value = action.metavar if isinstance(action.metavar, str) else ""
                roff.tagged(f"{names} {value}".strip(), action.help)


def commands_of(command: argparse.ArgumentParser, words: str = "") -> Iterator[tuple[str, argparse.ArgumentParser]]:
    """The parser and those below it, each with the words that lead to it."""
    inner = [action for action in command._actions if isinstance(action, argparse._SubParsersAction)]
    if not words or not inner:
        yield words, command
    for action in inner:
        for word, below in action.choices.items():
            yield from commands_of(below, f"{words} {word}".strip())
