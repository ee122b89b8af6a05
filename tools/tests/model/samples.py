"""What `--generate SEED --count COUNT` asks for."""

from __future__ import annotations

#: How many words a sample plans.
PLANNED = 8


def sample_script(seed: int, count: int) -> bytes:
    """The commands of a sample, as a script."""
    lines, start = [], seed % 1_000
    for at in range(1, count + 1):
        document, time = (start + 7 * at) % 100 + 1, 60 * at
        text = b" ".join(b"w%d" % ((start + at * by) % 200) for by in range(1, 6))
        arrival = b"arrive %d %d %d\n%b" % (document, time, len(text), text)
        lines.append(arrival if at % 10 else b"delete %d %d" % (document, time))
    lines += [b"plan w%d guarantee 3/2" % number for number in range(1, PLANNED + 1)]
    lines += [b"find %d w%d" % (60 * (count * number // 10), number) for number in range(1, 11)]
    return b"\n".join([*lines, b"verify", b""])
