"""The archive that the words of a command name, and the claim that the command has to it."""

from __future__ import annotations

import argparse

from .collection import Collection
from .locks import Claim, Use
from .program import find_program


def claim_of(options: argparse.Namespace, use: Use = Use.CHANGES) -> Claim:
    return Claim(f"`{options.command}`", options.wait, use)


def archive_of(options: argparse.Namespace, use: Use) -> Collection:
    return Collection(options.archive, find_program(options.program), claim_of(options, use))
