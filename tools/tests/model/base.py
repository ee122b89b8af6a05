"""Limits, and what a command or a file is told."""

from __future__ import annotations

#: No time is as late; where a span that hasn't ended yet ends.
FOREVER = 1 << 40
MOST_LINE, MOST_TEXT, MOST_KEY, MOST_OPEN, MOST_WEIGHT = 4_096, 4_194_304, 255, 64, 1_000
MOST_DOCUMENTS, MOST_VERSIONS, MOST_WORDS, MOST_BYTES = 1 << 20, 1 << 22, 1 << 20, 1 << 40
MOST_BOUNDARIES, PAGE = 1 << 20, 4_096
#: Of the changes of a batch, and of the bytes of their texts together.
MOST_ACTS, MOST_BATCH = 1_000, 1 << 24
#: Of the bytes of an entry in a packet.
MOST_BODY = 1 << 26
#: Of the rows that may be asked for.
MOST_TOP_ROWS, MOST_BEST_ROWS = 1_000_000, 1_000


class Refused(Exception):
    """A command is refused, with what stands behind the `no` of its reply."""


class NoCommand(Exception):
    """A line is no command, or one to come."""


class Broken(Exception):
    """The script is broken at this place."""


class NotArchive(Exception):
    """The journal is no archive's, which shows at this place."""


class Differs(Exception):
    """What the program chose isn't what the documents allow."""
