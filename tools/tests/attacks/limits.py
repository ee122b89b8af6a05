"""Archives at their limits. Most of their journals are written here, so that the program has only to load them."""

from __future__ import annotations

from struct import pack
from typing import Iterable

from model import FOLLOW, Outcome, packets, read_journal, spell_journal
from scripts import Folder

from attacks.rig import expect

DOCUMENTS, VERSIONS, WORDS, BOUNDARIES, TEXT = 1 << 20, 1 << 22, 1 << 20, 1 << 20, 1 << 22


def _arrival(document: int, time: int, text: bytes) -> bytes:
    return pack(">BIQ", 1, document, time) + text


def _batch(*acts: bytes) -> bytes:
    return pack(">BI", 4, len(acts)) + b"".join(pack(">I", len(it)) + it for it in acts)


def _arrive(document: int, time: int, text: bytes) -> bytes:
    return b"arrive %d %d %d\n%b\n" % (document, time, len(text), text)


def _expect(program: str, what: str, entries: Iterable[bytes], script: bytes, shown: bytes, first: int = 0) -> None:
    """With these entries in its journal the program shows this of a script; and then an export of what is there, where it is asked for
    from a number on."""
    with Folder(program) as folder:
        folder.journal.write_bytes(spell_journal(entries))
        outcome = folder.run(script)
        expect(outcome == Outcome(shown, "", 0), f"{what}: {outcome}, and not {shown!r}"[:2_000])
        if first:
            wanted = packets((entry for _, entry in read_journal(folder.journal.read_bytes())), first)
            outcome = folder.run(b"--export %d\n" % first)
            expect(outcome == Outcome(wanted, "", 0), f"{what}: an export from {first} ends with {outcome.status} {outcome.line!r}")
            if first == 1:
                _follow(program, what, wanted, folder.files())


def _follow(program: str, what: str, stream: bytes, files: list[bytes]) -> None:
    """By these packets a new archive comes to have these files."""
    with Folder(program) as folder:
        outcome = folder.run(FOLLOW + stream)
        is_level = (outcome.status, outcome.line) == (0, "") and folder.files() == files
        expect(is_level, f"{what}: a follower ends with {outcome.status} {outcome.line!r}, having shown {outcome.shown[-99:]!r}")


def _expect_end(program: str, what: str, entries: Iterable[bytes], count: int, nexts: list[bytes]) -> None:
    """Behind so many entries the last of these, each the next one, can't be taken, and those before it are."""
    with Folder(program) as folder:
        folder.journal.write_bytes(spell_journal(entries))
        parts = [pack(">QI", number, len(entry)) + entry for number, entry in enumerate(nexts, count + 1)]
        outcome = folder.run(FOLLOW + b"".join(parts))
        took, at = b"".join(b"took %d\n" % number for number in range(count + 1, count + len(nexts))), sum(map(len, parts[:-1]))
        expect(outcome == Outcome(took, f"tt_archive: bad packet at byte {at}\n", 15), f"a follower of {what}: {outcome}")


def reach_limits(program: str, audit: str) -> str:
    """As much of each as there may be, and one more."""
    _expect(
        program,
        "the longest text, and one that is longer",
        [],
        _arrive(1, 1, b"v" + bytes(TEXT)) + _arrive(1, 1, b"v" + bytes(TEXT - 1)) + b"find 1 v\n" + _arrive(2, 1, bytes(TEXT) + b"\xff"),
        b"no 5 TooLong 4194304\nok 1\nhit 1 1\nend 1 read 1\nno 5 TooLong 4194304\n",
        1,
    )
    four, items = [_arrive(document, 2, bytes(TEXT)) for document in range(4)], 1_000
    _expect(
        program,
        "the longest batch, and what is longer",
        [bytes([5, 0, 2])],
        b"".join([b"batch 5\n", *four, _arrive(4, 2, b"v")])
        + b"".join([b"batch 1\n", _arrive(4, 2, bytes(TEXT + 1)), b"batch 5\n", *four, _arrive(4, 2, b"")])
        + b"".join([b"batch %d\n" % items, *(_arrive(at, 3, b"v") for at in range(items))])
        + b"batch %d\nfind 3 v\n" % (items + 1),
        b"no 17 BatchTooLong 16777216\nno 5 TooLong 4194304 in 1\nok 2\nok 3\nno 1 Line\n"
        + b"".join(b"hit %d 1\n" % at for at in range(items))
        + b"end %d read %d\n" % (items, items),
        1,
    )
    _expect(
        program,
        "an archive with all documents",
        (_arrival(document, 1, b"") for document in range(DOCUMENTS)),
        b"arrive 1048576 2 1\nv\narrive 1048575 2 1\nv\ndelete 0 2\narrive 0 3 0\n\narrive 1048576 4 0\n\nfind 5 v\n"
        b"format 2\nbatch 2\ndelete 0 5\narrive 1048576 5 1\nv\nbatch 2\ndelete 0 5\narrive 0 6 1\nv\n",
        b"no 10 Full documents 1048576\nok 1048577\nok 1048578\nok 1048579\nno 10 Full documents 1048576\nhit 1048575 1\nend 1 read 1\n"
        b"ok 1048580\nno 10 Full documents 1048576 in 2\nok 1048581\n",
        1_000_000,
    )
    _expect(
        program,
        "an archive with all versions but one",
        (_arrival(at % 9, at, b"") for at in range(VERSIONS - 1)),
        b"format 2\nbatch 2\narrive 0 4194303 0\n\narrive 1 4194303 0\n\nbatch 1\narrive 0 4194303 0\n\narrive 0 4194304 1\nv\ndelete 0 4194304\narrive 10 4194304 1\nv\nfind 4194304 v\nverify\n",
        b"ok 4194304\nno 10 Full versions 4194304 in 2\nok 4194305\n" + 3 * b"no 10 Full versions 4194304\n" + b"end 0 read 0\nsound 0 0\n",
    )
    _expect_end(
        program,
        "an archive with all documents",
        (_arrival(document, 1, b"") for document in range(DOCUMENTS)),
        DOCUMENTS,
        [_arrival(DOCUMENTS - 1, 2, b"v"), _arrival(DOCUMENTS, 2, b"v")],
    )
    texts = [_arrival(document, 2, bytes(TEXT)) for document in range(4)]
    _expect_end(program, "a text that is too long", [], 0, [_arrival(1, 1, bytes(TEXT)), _arrival(2, 1, bytes(TEXT + 1))])
    _expect_end(program, "a batch that is too long", [bytes([5, 0, 2])], 1, [_batch(*texts), _batch(*(_arrival(it, 3, bytes(TEXT)) for it in range(4)), _arrival(4, 3, b"v"))])
    half = WORDS // 2
    texts = [b" ".join(b"%07x" % number for number in range(at, at + half)) for at in (0, half)]
    _expect(
        program,
        "an archive with all words",
        (_arrival(document, 1, text) for document, text in enumerate(texts)),
        _arrive(2, 2, b"one more") + _arrive(2, 2, b"0000000 00fffff")
        + b"format 2\nbatch 2\n" + _arrive(3, 2, b"0000001") + _arrive(4, 2, b"one more") + b"find 2 00fffff\nfind 2 more\ncertificate more\n",
        b"no 10 Full words 1048576\nok 3\nok 4\nno 10 Full words 1048576 in 2\nhit 1 1\nhit 2 1\nend 2 read 2\nend 0 read 0\nno 13 UnknownWord\n",
    )
    _expect(
        program,
        "a word with one boundary more than there may be",
        (_arrival(1, at, b"" if at % 2 else b"v") for at in range(BOUNDARIES)),
        b"arrive 1 1048576 1\nv\npropose v guarantee 2/1\nplan v guarantee 1/1\nfind 1000000 v\nverify\n",
        b"ok 1048577\n" + 2 * b"no 9 TooWide 1048577\n" + b"hit 1 1\nend 1 read 524289\nsound 0 0\n",
    )
    # (The model takes minutes for this one. It told the same, once.)
    _expect(
        program,
        "the longest sample",
        [],
        b"--generate 9999999999999999999 --count 100000\n",
        b"generated 100000 accepted 90008 refused 10000 hits 17 read 3517\nsound 8 13006\n",
    )
    return "7 limits, and what goes beyond them"
