#!/usr/bin/env python3
"""A page with forty versions and two hundred notes, as a collection may have them: 1.6 MB of script.

    python3 examples/realistic.py script | bin/tt_archive | diff - <(python3 examples/realistic.py replies)

What is answered on a new archive is worked out here from what the script says, never from a program.
"""
import sys

DAY = 86_400
VERSIONS = range(1, 41)
NOTES = range(1, 201)
PLANNED = range(1, 12)
ASKED = range(1, 31)


def script():
    # 7,999 times `wiki`, and a word that no other version has
    for number in VERSIONS:
        yield f"arrive 1000 {DAY * number} 40000"
        yield "wiki " * 7999 + f"rev{number:02}"
    for number in NOTES:
        yield f"arrive {number} {DAY * 41} 9"
        yield "note wiki"
    yield "plan wiki guarantee 3/2"
    for number in PLANNED:
        yield f"plan rev{number:02} guarantee 1/1"
    for number in ASKED:
        yield f"find {DAY * number} rev{number:02}"
    yield f"find {DAY * 41} wiki"
    yield f"between {DAY} {DAY * 41} wiki"
    yield "verify"


def replies():
    changes = len(VERSIONS) + len(NOTES)
    for length in range(1, changes + 1):
        yield f"ok {length}"
    # each word has one posting up to the horizon; a word of one version has none behind its day
    yield f"plan {changes + 1} segments 1 space 1 full 1 horizon {DAY * 41}"
    for number in PLANNED:
        yield f"plan {changes + 1 + number} segments 2 space 1 full 1 horizon {DAY * 41}"
    for _ in ASKED:
        yield "hit 1000 1"
        yield "end 1 read 1"
    yield "hit 1000 7999"
    for number in NOTES:
        yield f"hit {number} 1"
    yield f"end {1 + len(NOTES)} read {1 + len(NOTES)}"
    yield f"span 1000 {DAY} {DAY * 41} 7999"
    yield "end 1 read 1"
    yield f"sound {1 + len(PLANNED)} {1 + 2 * len(PLANNED)}"


if __name__ == "__main__":
    lines = {"script": script, "replies": replies}.get(" ".join(sys.argv[1:]))
    if lines is None:
        sys.exit("usage: realistic.py script|replies")
    for line in lines():
        print(line)
