"""Where each thing goes.

  PREFIX/bin/tt_archive, tt_verify          the programs as they were built
  PREFIX/bin/tt                             a link to the tools
  PREFIX/lib/tt_archive                     the tools, and a list of what was installed
  PREFIX/share/man                          tt_archive(1), tt_verify(1), tt(1), tt_archive(5)
  PREFIX/share/bash-completion/completions  for tt
  PREFIX/lib/systemd/system                 units: tt-serve@.service, tt-refresh@.service, tt-refresh@.timer
"""

from __future__ import annotations

import argparse
import compileall
import os
import shutil
import sys
from pathlib import Path
from typing import Sequence

from .completions import completions
from .manuals import manuals

TOP = Path(__file__).resolve().parents[2]
TOOLS = TOP / "tools"
_UNITS = Path(__file__).resolve().parent / "units"
_HOME = Path("lib") / "tt_archive"
_LIST = _HOME / "installed"


def main(words: Sequence[str] | None = None) -> int:
    parser = argparse.ArgumentParser(prog="tools/install", description="Installs the programs, the tools, manual pages, completions and units.", epilog=__doc__, formatter_class=argparse.RawDescriptionHelpFormatter)  # fmt: skip
    parser.add_argument("prefix", type=Path, metavar="PREFIX", help="such as /usr/local")
    for name in ("tt_archive", "tt_verify"):
        parser.add_argument(f"--{name}", type=Path, metavar="FILE", help=f"the {name} to install (the one that bin/{name} has built)")
    parser.add_argument("--destdir", type=Path, metavar="FOLDER", help="where PREFIX is to be made, for packages (the root)")
    parser.add_argument("--remove", action="store_true", help="remove what was installed there")
    options = parser.parse_args(words)
    prefix = options.prefix.absolute()
    place = options.destdir.absolute() / prefix.relative_to("/") if options.destdir else prefix
    try:
        if options.remove:
            remove(place)
        else:
            programs = {name: _built(name, getattr(options, name)) for name in ("tt_archive", "tt_verify")}
            install(place, prefix, programs)
            print(f"installed below {place}; `tools/install --remove {options.prefix}` removes it")
    except (OSError, ValueError) as error:
        print(f"tools/install: {error}", file=sys.stderr)
        return 1
    return 0


def _built(name: str, named: Path | None) -> Path:
    path = named or TOP / "crates" / name / "out" / name
    if not os.access(path, os.X_OK) or path.is_dir():
        how = "there is no such program" if named else f"bin/{name} hasn't been built yet: build it, or name one with --{name}"
        raise ValueError(f"{path}: {how}")
    return path


def install(place: Path, prefix: Path, programs: dict[str, Path]) -> None:
    """Puts everything below `place`, which will be known as `prefix`."""
    remove(place)
    done = _Placed(place)
    for name, path in programs.items():
        done.put(Path("bin") / name, path.read_bytes(), 0o755)
    for file in sorted((TOOLS / "tt_archive_tools").rglob("*")):
        if file.is_file() and file.suffix != ".pyc":
            done.put(_HOME / file.relative_to(TOOLS), file.read_bytes())
    done.put(_HOME / "tt", (TOOLS / "tt").read_bytes(), 0o755)
    done.link(Path("bin") / "tt", Path("..") / _HOME / "tt")
    done.link(_HOME / "tt_archive", Path("..") / ".." / "bin" / "tt_archive")  # where the tools look first after the path
    for name, page in manuals().items():
        done.put(Path("share") / "man" / f"man{name[-1]}" / name, page.encode())
    done.put(Path("share") / "bash-completion" / "completions" / "tt", completions().encode())
    for unit in sorted(_UNITS.iterdir()):
        done.put(Path("lib") / "systemd" / "system" / unit.name, unit.read_text().replace("@PREFIX@", str(prefix)).encode())
    done.put(_LIST, "".join(f"{path}\n" for path in [*done.paths, _LIST]).encode())
    compileall.compile_dir(place / _HOME, quiet=2, stripdir=place, prependdir=prefix)


def remove(place: Path) -> None:
    """Takes away what a former run put there, and the folders that are empty then."""
    if not (place / _LIST).exists():
        return
    for line in (place / _LIST).read_text().splitlines():
        path = place / line
        path.unlink(missing_ok=True)
        shutil.rmtree(path.parent / "__pycache__", ignore_errors=True)
        for folder in path.parents:
            if folder == place or not folder.exists() or any(folder.iterdir()):
                break
            folder.rmdir()


class _Placed:
    """Files put in place one after another; a file that is in use is replaced, and not written over."""

    def __init__(self, place: Path) -> None:
        self._place = place
        self.paths: list[Path] = []

    def put(self, path: Path, content: bytes, mode: int = 0o644) -> None:
        new = self._new(path)
        new.write_bytes(content)
        new.chmod(mode)
        new.replace(self._place / path)

    def link(self, path: Path, to: Path) -> None:
        new = self._new(path)
        new.symlink_to(to)
        new.replace(self._place / path)

    def _new(self, path: Path) -> Path:
        self.paths.append(path)
        (self._place / path).parent.mkdir(parents=True, exist_ok=True)
        new = (self._place / path).with_name(f".{path.name}.new")
        new.unlink(missing_ok=True)
        return new
