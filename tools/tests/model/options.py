"""The words of the command line that ask for something else than a script. Here they stand in a script's place, on a line by
themselves, and what a follower is to read stands behind it."""

from __future__ import annotations

FOLLOW = b"--follow\n"


def words_of(script: bytes) -> list[str]:
    """The words that stand in the place of a script; none where it is one."""
    line = script.partition(b"\n")[0]
    return line.decode().split() if script.startswith((b"--generate ", b"--export ", FOLLOW)) else []


def input_of(script: bytes) -> bytes:
    """What the program finds at its input: the script, the packets behind the word of a follower, or what it doesn't read."""
    return script.removeprefix(FOLLOW)
