"""A model of the archive's surface: a script's grammar, every command's reply, the bytes of the journal and of the sublists.

It is written from docs/formats.md and docs/manual.md alone, and is to be read as a second specification. An `Archive` keeps the
texts and the stored plans, and answers by looking at the texts. Where the documents leave a choice, which is only where a plan
cuts, the model takes the cuts that the program stored or showed, and holds them against the definitions (`Choice`).

It doesn't know of disks that fail, of locks, and of the commands to come: it reads these, and declines them, as the documents
say. A new command gets a case in `Archive._reply`. Words are found by Unicode's categories and caseless matching as this Python
has them, which may be of another version of Unicode than the program's.
"""

from .archive import STINT_PAGES, Archive, Choice, Outcome
from .base import PAGE, Differs, NotArchive
from .journal import HEADER, OPEN, read_journal, spell_journal
from .options import FOLLOW, input_of, words_of
from .packets import packets
from .script import items

__all__ = [
    *("FOLLOW", "HEADER", "OPEN", "PAGE", "STINT_PAGES", "Archive", "Choice", "Differs", "NotArchive", "Outcome"),
    *("input_of", "items", "packets", "read_journal", "spell_journal", "words_of"),
]
