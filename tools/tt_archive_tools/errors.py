"""Errors that end a command, with one line for whoever gave it."""

from __future__ import annotations

from typing import Sequence


class ToolError(Exception):
    """Something that the user can see and mend; its text is one line, which lines that show it may follow."""

    def __init__(self, text: str, shown: Sequence[str] = ()) -> None:
        super().__init__(text)
        self.shown = shown


class InputError(ToolError):
    """A fault in what is imported, with the place where it stands."""

    def __init__(self, place: str, what: str) -> None:
        super().__init__(f"{place}: {what}")


class InUse(ToolError):
    """Another process is at work in the folder."""


class BadQuery(ToolError):
    """What is asked is no query, which shows at this byte of it."""

    def __init__(self, byte: int) -> None:
        super().__init__(f"what is asked is no query, which shows at its byte {byte}")
        self.byte = byte


class NotBuilt(ToolError):
    """The program answered that it doesn't know a command."""

    def __init__(self, command: str) -> None:
        super().__init__(f"this tt_archive doesn't answer `{command}` yet")
        self.command = command


class ProgramFailed(ToolError):
    """The program ended, or its replies can't be read."""
