"""The commands that ask a cluster of itself: status, stop, place and drop."""

from __future__ import annotations

import argparse
from typing import Any, Mapping, Sequence

from ..errors import ToolError
from ..locks import locked
from ..opening import claim_of
from ..times import show_time
from ..wording import counted, one_line
from .asking import request

_HEADS = ("shard", "worker", "folder", "machine", "process", "entries", "until", "state")


def status(options: argparse.Namespace) -> None:
    shards = request(options.archive, "status")
    rows = [(str(number), *_row(place, places)) for number, places in enumerate(shards) for place in places]
    widths = [max(map(len, column)) for column in zip(_HEADS, *rows)]
    for row in (_HEADS, *rows):
        print("  ".join(cell.ljust(width) for cell, width in zip(row, widths)).rstrip())
    lost = [str(number) for number, places in enumerate(shards) if all("why" in place for place in places)]
    if lost:
        raise ToolError(f"no place of shard {', '.join(lost)} can be asked, and so nothing is answered")


def stop(options: argparse.Namespace) -> None:
    ends = request(options.archive, "stop")
    for place, status, said in ends:
        print(one_line(f"{place}: {'ended in order' if status == 0 else said or f'ended with status {status}'}"))


def place(options: argparse.Namespace) -> None:
    with locked(options.archive, claim_of(options)):
        _, count = request(options.archive, "place", options.shard, options.worker, str(options.folder))
    print(f"{options.worker}:{options.folder} is a copy of shard {options.shard}, with {counted(count, 'entry', 'entries')} sent to it now")


def drop(options: argparse.Namespace) -> None:
    with locked(options.archive, claim_of(options)):
        dropped = request(options.archive, "drop", options.shard, options.worker)
    print(f"{dropped} is no place of shard {options.shard} any more; its files are left as they are")


def _row(place: Mapping[str, Any], places: Sequence[Mapping[str, Any]]) -> tuple[str, ...]:
    found = (place["worker"], place["place"])
    if "why" in place:
        return (*found, "-", "-", "-", "-", one_line(f"lost: {place['why']}"))
    until = "-" if place["last"] is None else show_time(place["last"])
    return (*found, place["machine"], str(place["process"]), str(place["entries"]), until, _state(place, places[0]))


def _state(place: Mapping[str, Any], first: Mapping[str, Any]) -> str:
    if place is first:
        return "first"
    if "why" in first:
        return "copy"
    behind = first["entries"] - place["entries"]
    return f"copy, {counted(behind, 'entry', 'entries')} behind" if behind else "copy, level"
