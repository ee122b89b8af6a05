"""Requests to the process of a `tt cluster start`."""

from __future__ import annotations

import json
import socket
from pathlib import Path
from typing import Any

from ..errors import ToolError
from ..locks import CLUSTER
from ..serving.door import address

#: A visit to a place: whether it asks or feeds, the archive, and the place in its line.
ASKS, FEEDS = b"asks %d %d\n", b"feeds %d %d\n"


def request(folder: Path, what: str, *words: object) -> Any:
    """What the cluster of a folder answers; it may take as long as a load, or a copy."""
    with socket.socket(socket.AF_UNIX) as visitor:
        try:
            with address(folder / CLUSTER) as path:
                visitor.connect(path)
        except OSError:
            raise ToolError(f"no cluster is started in {folder}: `tt -C {folder} cluster start` starts one") from None
        visitor.sendall(b"do %b\n" % json.dumps([what, *words]).encode())
        with visitor.makefile("rb") as answer:
            kind, _, size = answer.readline().partition(b" ")
            body = answer.read(int(size)) if size else b""
    if kind == b"reply":
        return json.loads(body)
    raise ToolError(body.decode("utf-8", "replace") or "the cluster has ended")
