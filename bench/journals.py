"""Collections of versions, made up or found on the machine, and their journals (docs/formats.md)."""
import glob, gzip, itertools, os, random, re
from collections import Counter
from typing import NamedTuple

HEADER = b"TIMETRAVELTEXT\x00\x01"
VERSIONS, WORDS, TERMS = 10, 300, 20000
#: The most bytes of a text.
MOST = 4_194_304


def made(documents, versions=VERSIONS, words=WORDS):
    """The versions of a collection that is made up, in order of time: a document, and its words. The words are by Zipf's law, and
    a fifth of them is new at each version."""
    rng = random.Random(7)
    weights = list(itertools.accumulate(1 / (k + 1) for k in range(TERMS)))
    names = [b"w%d" % k for k in range(TERMS)]
    texts = {d: rng.choices(range(TERMS), cum_weights=weights, k=words) for d in range(documents)}
    for version in range(versions):
        for d in range(documents):
            text = texts[d]
            if version:
                for k in range(0, words, 5):
                    text[k] = rng.choices(range(TERMS), cum_weights=weights)[0]
            yield d, [names[k] for k in text]


def changelogs():
    """The versions of the installed packages' changelogs, one of each package after another, as they grew: a document each, whose
    versions have the three latest entries as of each. The words are the stretches of ASCII letters and digits in small letters."""
    documents = []
    for path in sorted(glob.glob("/usr/share/doc/*/changelog*.gz")):
        with gzip.open(path, "rb") as file:
            entries = re.split(rb"(?m)^(?=\S+ \([^)]*\))", file.read())
        words = [re.findall(rb"[a-z0-9]+", entry.lower()) for entry in reversed(entries) if entry.strip()]
        documents.append([[w for w in itertools.chain(*words[max(0, k - 2) : k + 1]) if len(w) < 256] for k in range(len(words))])
    for version in range(max(map(len, documents), default=0)):
        for d, versions in enumerate(documents):
            if version < len(versions) and len(b" ".join(versions[version])) <= MOST:
                yield d, versions[version]


def steady(postings, documents):
    """Versions in which the word `v` has so many postings before the last time, of which as many hold at each time as there are
    documents: at each time a document gets it once or twice, in turn."""
    rng = random.Random(3)
    often = [0] * documents
    for i in range(postings + 1):
        d = i if i < documents else rng.randrange(documents)
        often[d] = 2 if often[d] == 1 else 1
        yield d, [b"v"] * often[d]


def record(doc, at, text):
    """The record of an arrival, behind which the next gate stands."""
    body = b"\x01" + doc.to_bytes(4, "big") + at.to_bytes(8, "big") + text
    return b"\xa5" + len(body).to_bytes(4, "big") + body


class Written(NamedTuple):
    """What a journal has: how many versions, how many bytes their texts have, and how often each word stands in them."""

    versions: int
    size: int
    counts: Counter

    def ranked(self):
        """The words that may stand in a question, the most frequent first."""
        return [word.decode() for word in sorted(self.counts, key=lambda word: (-self.counts[word], word)) if word not in (b"and", b"or", b"not")]


def write(path, versions, lines=os.devnull):
    """Writes the journal of versions, each with a time of its own, from 0 on; and their texts as lines of another file."""
    count = size = 0
    counts = Counter()
    with open(path, "wb", buffering=1 << 20) as file, open(lines, "wb") as texts:
        file.write(HEADER)
        for doc, words in versions:
            text = b" ".join(words)
            file.write(record(doc, count, text))
            texts.write(text + b"\n")
            count += 1
            size += len(text)
            counts.update(words)
        file.write(b"\x00")
    return Written(count, size, counts)
