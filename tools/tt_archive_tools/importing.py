"""The commands that import. Each makes its source, and loads what it alone needs."""

from __future__ import annotations

import argparse
import os
import shlex
from contextlib import ExitStack
from pathlib import Path

from .sources import Source, Together

#: The options of a source that are there or not, and those that have a value.
_FLAGS, _VALUES = ("keep_redirects", "by_time", "keep_html"), ("branch", "prefix", "charset")


def import_source(options: argparse.Namespace) -> None:
    with ExitStack() as running:
        source = source_of(options, running)
        from .filling import import_from  # git is at work while this is loaded

        import_from(source, options)


def source_of(options: argparse.Namespace, running: ExitStack) -> Source:
    """The source that the words of a command name. What runs for it ends with `running`."""
    match options.source:
        case "git":
            from .sources.git import GitSource

            return _together([
                running.enter_context(GitSource(repository, options.branch, tuple(options.only), prefix))
                for repository, prefix in _prefixed(options.paths, options.prefix)
            ])  # fmt: skip
        case "mediawiki":
            from .sources.mediawiki import MediaWikiSource

            return MediaWikiSource(tuple(options.paths), options.keep_redirects, options.prefix)
        case "warc":
            from .sources.warc import WarcSource

            return WarcSource(tuple(options.paths), options.prefix)
        case _:
            from .sources.folder import FolderSource

            return _together([FolderSource(*tree, options.by_time) for tree in _prefixed(options.paths, options.prefix)])


def again(options: argparse.Namespace) -> str:
    """The words behind `tt import` that import the same from any folder. A symbolic link stays one, as it may come to
    point to something newer."""
    words = [options.source, *map(os.path.abspath, options.paths)]
    words += [f"--{flag.replace('_', '-')}" for flag in _FLAGS if getattr(options, flag, False)]
    words += [f"--{name}={value}" for name in _VALUES if (value := getattr(options, name, None))]
    only = getattr(options, "only", [])
    return shlex.join([*words, *(["--only", *only] if only else [])])


def _prefixed(paths: list[Path], prefix: str) -> list[tuple[Path, str]]:
    """Where there are several, the documents of each are named after it."""
    if len(paths) == 1:
        return [(paths[0], prefix)]
    return [(path, f"{prefix}{path.resolve().name}/") for path in paths]


def _together(sources: list[Source]) -> Source:
    return sources[0] if len(sources) == 1 else Together(tuple(sources))
