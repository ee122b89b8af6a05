"""Files that were damaged: cut short, or with other bytes. (The rows of `rows_changes` and `rows_checks` have more, on the machine
in memory.)"""

from __future__ import annotations

import random
from struct import pack

from model import HEADER, PAGE, Archive, NotArchive, Outcome, read_journal, spell_journal
from scripts import Folder

from attacks.rig import BATCH_SCRIPT, EXPORT, SAMPLE, SCRIPT, ends, expect, some

ONE_SCRIPT = b"arrive 7 10 5\nred a\n"
FORMATS_SCRIPT = b"arrive 1 10 1\nv\narrive 2 20 1\nv\ndelete 2 30\ndelete 1 40\nplan v guarantee 1/1\n"
#: The archive of docs/formats.md: the gate of its plan, and the bytes of its first sublist.
PLAN_GATE, FIRST_SUBLIST = 90, 18


def not_archive(place: int) -> Outcome:
    return Outcome(b"", f"tt_archive: not an archive at byte {place} of the journal\n", 3)


def journals(one: bytes) -> list[tuple[str, bytes, int | None]]:
    """Damaged journals of the archive with one arrival, each with the place that shows it (none where it is an archive's)."""

    def with_byte(place: int, byte: int) -> bytes:
        return one[:place] + bytes([byte]) + one[place + 1 :]

    return [
        *((f"cut to {length} bytes", one[:length], None) for length in range(18)),
        *((f"cut to {length} bytes", one[:length], 16) for length in range(18, len(one))),
        ("another header", with_byte(5, 0x3F), 5),
        ("a closed gate", with_byte(16, 0), None),
        ("a length past the end", with_byte(20, 0x13), 16),
        ("a deletion with bytes behind it", with_byte(21, 2), 34),
        ("an unknown tag", with_byte(21, 9), 21),
        ("a time past all times", with_byte(26, 0xFF), 26),
        ("a text that isn't UTF-8", with_byte(34, 0xFF), 34),
        ("the arrival twice", one[:39] + one[16:39] + b"\0", 39),
    ]


def _record(body: bytes) -> bytes:
    return b"\xa5" + pack(">I", len(body)) + body


def batch_journals(one: bytes) -> list[tuple[str, bytes, int | None]]:
    """The same with the mark behind the arrival, and a batch behind that."""
    mark, arrival, deletion = b"\5\0\2", pack(">BIQ", 1, 8, 20) + b"red", pack(">BIQ", 2, 7, 21)
    marked = one[:-1] + _record(mark)
    gate = len(marked)
    first = gate + 5 + 9  # the first act, behind its length

    def batch(*acts: bytes, count: int | None = None) -> bytes:
        return pack(">BI", 4, len(acts) if count is None else count) + b"".join(pack(">I", len(act)) + act for act in acts)

    def with_length(length: int) -> bytes:
        return batch(arrival, deletion)[:5] + pack(">I", length) + batch(arrival, deletion)[9:]

    texts = [pack(">BIQ", 1, at, 20) + bytes(1 << 22) for at in range(4)]
    bodies: list[tuple[str, bytes, int | None]] = [
        ("a batch", batch(arrival, deletion), None),
        ("a batch of the longest texts", batch(*texts), None),
        ("a batch of texts that are too long together", batch(*texts, arrival), gate),
        ("a second mark", mark, gate),
        ("a batch of no change", batch(), gate + 6),
        ("a batch of 1,001 changes", batch(*[arrival] * 1_001), gate + 6),
        ("a batch whose number of changes is cut short", batch(arrival)[:4], gate + 6),
        ("a batch that has a change less than it says", batch(arrival, count=2), first + len(arrival)),
        ("a change whose length is cut short", batch(arrival)[:7], gate + 10),
        ("a change that is longer than the batch", batch(arrival)[:-1], first),
        ("a change of no byte", with_length(0), first),
        ("a change whose time is cut short", with_length(12), first + 5),
        ("a plan in a batch", batch(b"\3" + arrival[1:]), first),
        ("a batch in a batch", batch(batch(arrival)), first),
        ("a mark in a batch", batch(mark), first),
        ("a time past all times in a batch", batch(arrival[:5] + b"\xff" + arrival[6:]), first + 5),
        ("a text that isn't UTF-8 in a batch", batch(arrival + b"\xff"), first + 13),
        ("a text that is too long in a batch", batch(texts[0] + b"v"), first + 13),
        ("a deletion with bytes behind it in a batch", batch(deletion + b"v"), first + 13),
        ("bytes behind a batch", batch(arrival) + b"v", first + len(arrival)),
        ("a batch that goes back in time", batch(deletion, arrival), gate),
        ("a batch with a change that the one before it doesn't allow", batch(arrival, arrival), gate),
    ]
    return [
        ("a batch before the mark", one[:-1] + _record(batch(arrival)) + b"\0", gate - 8),
        *((what, marked + _record(body) + b"\0", place) for what, body, place in bodies),
    ]


def damage_journals(program: str, audit: str) -> str:
    with Folder(program) as folder:
        folder.run(ONE_SCRIPT)
        one = folder.journal.read_bytes()
        expect(len(one) == 40, f"the journal of one arrival has {len(one)} bytes")
        table = [*journals(one), *batch_journals(one)]
        for what, journal, place in table:
            folder.journal.write_bytes(journal)
            if len(journal) < 1 << 20:  # (the model is slow)
                expect(_model_place(journal) == place, f"a journal with {what}: the model has it at fault at {_model_place(journal)}")
            wanted = Outcome(b"", "", 0) if place is None else not_archive(place)
            for script in [b""] if place is None else [b"", SAMPLE, EXPORT]:
                outcome = folder.run(script)
                expect(outcome == wanted, f"a journal with {what}, {journal[:99].hex()}: {outcome}, and not {wanted}")
            left = HEADER + b"\0" if len(journal) <= 17 else journal
            is_left = folder.journal.read_bytes()
            expect(is_left == left, f"a journal with {what}, {journal[:99].hex()}, is left as {is_left[:99].hex()}")
            audited = ends([audit], folder.path)
            told = Outcome(b"sound 0 0\n", "", 0) if place is None else Outcome(b"", wanted.line.replace("tt_archive", "tt_verify"), 3)
            expect(audited == told, f"an audit of a journal with {what}: {audited}, and not {told}")
            if place is None and not what.startswith("a batch"):
                outcome = folder.run(b"find 10 red\n")
                expect(outcome.shown == b"end 0 read 0\n", f"a journal with {what} has an entry: {outcome}")
    return f"{len(table)} damaged journals"


def _model_place(journal: bytes) -> int | None:
    """Where the model has a journal at fault."""
    try:
        Archive.loaded(journal, 0)
    except NotArchive as place:
        return int(str(place))
    return None


def damage_pages(program: str, audit: str) -> str:
    with Folder(program) as folder:
        expect(not (difference := folder.difference(FORMATS_SCRIPT)), f"the archive of docs/formats.md: {difference}")
        journal, pages = folder.journal.read_bytes(), folder.pages.read_bytes()
        *_, (last, content) = folder.archive.live_sublists()
        end = last + len(content)
        cuts = [0, 1, FIRST_SUBLIST - 1, PAGE, last, end - 1]
        for length in cuts:
            folder.pages.write_bytes(pages[:length])
            outcome = folder.run(b"find 25 v\n")
            expect(outcome == not_archive(PLAN_GATE), f"Pages cut to {length} bytes: {outcome}")
            expect(folder.journal.read_bytes() == journal, f"Pages cut to {length} bytes: the journal is changed")
        folder.pages.write_bytes(pages[:end])
        expect(not (difference := folder.difference(b"verify\nfind 35 v\n")), f"Pages cut to {end} bytes: {difference}")
        for place in range(FIRST_SUBLIST):
            _damage_byte(folder, audit, pages, place)
    return f"{len(cuts)} cuts of Pages, and {FIRST_SUBLIST} sublists with another byte"


def _damage_byte(folder: Folder, audit: str, pages: bytes, place: int) -> None:
    """One byte of the first sublist is another: a question that reads it ends the run, others don't, a check names its place, and a new
    plan mends it."""
    byte = pages[place] ^ 0x40
    folder.pages.write_bytes(pages[:place] + bytes([byte]) + pages[place + 1 :])
    what = f"the byte {place} of the first sublist is {byte:02x}"
    outcome = folder.run(b"find 25 v\nfind 15 v\nfind 25 v\n")
    shown = b"hit 1 1\nhit 2 1\nend 2 read 2\n"
    wanted = Outcome(shown, "tt_archive: damaged sublist at page 0: digest\n", 8)
    expect(outcome == wanted, f"{what}: {outcome}, and not {wanted}")
    differs = b"differs v 0 %d %02x %02x\n" % (place, byte, pages[place])
    outcome = folder.run(b"verify\nfind 25 v\n")
    expect(outcome == Outcome(differs + shown, "", 0), f"{what}: {outcome}, and not {differs!r}")
    outcome = ends([audit], folder.path)
    expect(outcome == Outcome(differs, "tt_verify: not sound\n", 1), f"{what}: the audit: {outcome}, and not {differs!r}")
    kept = folder.journal.read_bytes()
    outcome = folder.run(b"plan v guarantee 1/1\nfind 15 v\nverify\n")
    mended = b"plan 6 segments 3 space 4 full 2 horizon 40\nhit 1 1\nend 1 read 1\nsound 1 3\n"
    expect(outcome == Outcome(mended, "", 0), f"{what}, and the word is planned anew: {outcome}")
    # A plan that is begun mends it too, once it is at its end. Where the question ends the run, it is left, and the old one stays.
    folder.journal.write_bytes(kept)
    folder.pages.write_bytes(pages[:place] + bytes([byte]) + pages[place + 1 :])
    begin, left = b"begin v guarantee 1/1\n", Outcome(b"begun 3 3\n", wanted.line, 8)
    outcome = folder.run(begin + b"find 15 v\n")
    expect(outcome == left, f"{what}, and the word is asked for while it is planned anew: {outcome}, and not {left}")
    expect(folder.journal.read_bytes() == kept, f"{what}: the plan that was left is in the journal")
    outcome = folder.run(begin + b"verify\nfind 15 v\nverify\n")
    mended = b"begun 3 3\n" + differs + mended.replace(b"plan 6", b"done 6")
    expect(outcome == Outcome(mended, "", 0), f"{what}, and a new plan of the word is begun: {outcome}, and not {mended!r}")
    folder.journal.write_bytes(kept)


def alter_journals(program: str, audit: str, *, is_all: bool) -> str:
    """A journal with plans of each kind, with another byte somewhere, or with entries that are missing, twice there or exchanged: the
    program loads it where the model does, and otherwise refuses it at the same place."""
    chance, refused, count = random.Random(7), 0, 5_000 if is_all else 600
    with Folder(program) as folder:
        some(folder)
        for script in (SCRIPT, BATCH_SCRIPT):
            expect(not (difference := folder.difference(script)), difference)
        journal, length = folder.journal.read_bytes(), folder.pages.stat().st_size
        for _ in range(count):
            altered = _altered(chance, journal)
            folder.journal.write_bytes(altered)
            try:
                Archive.loaded(altered, length)
                wanted = Outcome(b"", "", 0)
            except NotArchive as place:
                wanted = not_archive(int(str(place)))
                refused += 1
            outcome = folder.run(b"")
            expect(outcome == wanted, f"the journal {altered.hex()} beside Pages of {length} bytes: {outcome}, and not {wanted}")
            expect(folder.journal.read_bytes() == altered, f"the journal {altered.hex()} is changed by a load")
    return f"{count} altered journals, {refused} of them refused"


def _altered(chance: random.Random, journal: bytes) -> bytes:
    if chance.randrange(3):
        place = chance.randrange(len(journal))
        byte = chance.choice([0, 1, 2, 3, 9, 0xA5, 0xFF, journal[place] ^ 1, journal[place] ^ 0x80, (journal[place] + 1) % 256])
        return journal[:place] + bytes([byte]) + journal[place + 1 :]
    entries = [entry for _, entry in read_journal(journal)]
    one, other = chance.sample(range(len(entries)), 2)
    kind = chance.randrange(4)
    if kind == 0:
        entries[one], entries[other] = entries[other], entries[one]
    elif kind == 1:
        entries.insert(one, entries[other])
    elif kind == 2:
        del entries[one]
    else:
        place = chance.randrange(len(entries[one]))
        entries[one] = entries[one][:place] + entries[one][place + chance.randrange(2) :] + bytes(chance.randrange(2))
    return spell_journal(entries)
