"""The stories of docs/keepers.md: what their commands print is what stands there."""

from __future__ import annotations

import os
import re
import shlex
import subprocess
import sys
import tempfile
import unittest
from pathlib import Path

from support import TOOLS, answers

TOP = TOOLS.parent
STORY = re.compile(r"^## (.+?)\n(.*?)(?=^## |\Z)", re.MULTILINE | re.DOTALL)
#: What the stories draw, and where the page has it.
PICTURES = {"bridge.svg": "timeline.svg", "tradeoff.svg": "tradeoff.svg", "asked.svg": "tradeoff-asked.svg"}
BLOCK = re.compile(r"^```console\n(.*?)^```$", re.MULTILINE | re.DOTALL)


def commands_of(block: str) -> list[tuple[str, str]]:
    """The commands of a block, each with what it prints."""
    pieces = re.split(r"^\$ ", block, flags=re.MULTILINE)[1:]
    return [(command, printed) for command, _, printed in (piece.partition("\n") for piece in pieces)]


def run(command: str, folder: Path) -> str:
    environment = {
        **os.environ,
        "PATH": f"{folder}/bin:{os.environ['PATH']}",
        "GIT_CONFIG_GLOBAL": os.devnull,
        "GIT_AUTHOR_DATE": "2010-01-01T00:00:00Z",
    }
    done = subprocess.run(
        command, shell=True, cwd=folder, env=environment, timeout=60,
        stdout=subprocess.PIPE, stderr=subprocess.STDOUT, text=True,
    )  # fmt: skip
    return done.stdout


def missing(story: str) -> list[str]:
    """What a story asks for and the program under test doesn't answer yet."""
    wanted = {
        "utf8": "warc",
        "queries": r'find "[^"]+ [^"]+"',
        "between": r"tt -C archive (between|timeline)",
        "propose": r"tt -C archive tradeoff",
        "shares": r"tt -C archive share",
        "sublists": r"tt -C archive plan",
        "follow": r"tt -C \S+ follow",
    }
    return [what for what, words in wanted.items() if re.search(words, story) and not answers(what)]


class Stories(unittest.TestCase):
    def test_stories(self) -> None:
        text = (TOP / "docs" / "keepers.md").read_text()
        told = 0
        for story, body in STORY.findall(text):
            blocks = BLOCK.findall(body)
            if not blocks or missing(body):
                continue
            with self.subTest(story), tempfile.TemporaryDirectory() as kept:
                folder = Path(kept)
                (folder / "examples").symlink_to(TOP / "examples")
                (folder / "bin").mkdir()
                tt = folder / "bin" / "tt"
                tt.write_text(f'#!/bin/sh\nexec {shlex.join([sys.executable, "-S", "-E", str(TOOLS / "tt")])} "$@"\n')
                tt.chmod(0o755)
                for command, printed in (pair for block in blocks for pair in commands_of(block)):
                    self.assertEqual(run(command, folder), printed, command)
                    told += 1
                for drawn, shown in PICTURES.items():
                    if (folder / drawn).exists():
                        self.assertEqual((folder / drawn).read_text(), (TOP / "docs" / shown).read_text(), shown)
        if not any(missing(body) for _, body in STORY.findall(text)):
            self.assertGreater(told, 20)
