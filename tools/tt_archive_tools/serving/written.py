"""Replies as the program writes them (docs/formats.md)."""

from __future__ import annotations

from ..replies import Gone, Hit, Ok, Pieces, Planned, Refused, Reply, Rows, Text, Verdict


def written(reply: Reply) -> bytes:
    """The reply's bytes, which `ReplyReader` reads as the same."""
    if isinstance(reply, Text):
        return b"text %d\n%b\n" % (len(reply.text), reply.text)
    return "".join(line + "\n" for line in _lines(reply)).encode()


def _lines(reply: Reply) -> list[str]:
    match reply:
        case Rows(rows, read):
            return [*map(_row, rows), f"end {len(rows)} read {read}"]
        case Pieces(segments, nodes, space):
            shown = [f"segment {start} {end} {size}" for start, end, size in segments]
            return [*shown, *(f"node {time} {pi}" for time, pi in nodes), f"end {len(segments)} space {space}"]
        case Refused(number, name, detail):
            return [f"no {number} {name} {detail}".rstrip()]
        case Gone():
            return ["none"]
        case Ok(length):
            return [f"ok {length}"]
        case Verdict(line):
            return [line]
        case Planned(length, segments, space, full, horizon, cost):
            told = f"plan {length} segments {segments} space {space} full {full} horizon {horizon}"
            return [told if cost is None else f"{told} cost {cost}"]
    raise ValueError(reply)


def _row(row: object) -> str:
    return f"hit {row.doc} {row.score}" if isinstance(row, Hit) else "span %d %d %d %d" % row  # type: ignore[str-format]
