"""What a query doesn't say, where one is at fault, and the words of a query in the texts that it finds."""

from __future__ import annotations

import shutil
import unittest

from support import DAY, ArchiveCase, Version, needs
from tt_archive_tools.found import parts, pieces
from tt_archive_tools.queries import scoring_keys
from tt_archive_tools.words import key_of

#: 2007-07-23
START = 13_717 * DAY
TEXTS = {
    "law": "A stored plan and a horizon.",
    "road": "The plan of the road, without a far view.",
    "straße": "Die Straße über die Brücke. " + "Und weiter. " * 20 + "Noch eine STRASSE hier, und keine zweite Straße dort.",
}
#: As they are typed, and what is said of each.
HINTS = {
    "plan AND horizon": "AND in capitals is a word to look for; the operator is written and",
    "plan OR horizon": "OR in capitals is a word to look for; the operator is written or",
    "plan NOT horizon": "NOT in capitals is a word to look for; the operator is written not",
    "plan -horizon": "of -horizon only the word horizon is looked for: what lacks it is found by: not horizon",
    '"stored plan"': "of \"stored only the word stored is looked for, wherever it stands: there are no phrases",
    "plan*": "of plan* only the word plan is looked for: there are no wildcards",
    "plan.": "of plan. only the word plan is looked for: there are no signs",
    "plan and not (horizon or road)": "",
    "Plan And horizon": "",
}  # fmt: skip
#: What is no query, and what is said below it.
FAULTS = {
    "(closed": "    (closed\n           ^ a ) is missing here\n",
    "closed and": "    closed and\n              ^ a word is missing here\n",
    "closed or not": "    closed or not\n                 ^ a word is missing here\n",
    "or closed": "    or closed\n    ^ a word is missing before this\n",
    "(closed and)": "    (closed and)\n               ^ a word is missing before this\n",
    "closed)": "    closed)\n          ^ no ( is open here\n",
    "Brücke ... closed": "    Brücke ... closed\n           ^ this has no word in it\n",
    "橋 don't": "    橋 don't\n       ^ this has 2 words in it: write don t\n",
    "x" * 256: f"    {'x' * 256}\n    ^ this word is longer than 255 bytes\n",
    "(" * 65 + "a": f"    {'(' * 65}a\n    {' ' * 64}^ more than 64 ( and not are open here\n",
}


class Queries(ArchiveCase):
    def setUp(self) -> None:
        super().setUp()
        self.fill([Version(START, name, text) for name, text in TEXTS.items()])

    @needs("queries")
    def test_what_a_query_does_not_say(self) -> None:
        for query, hint in HINTS.items():
            said = self.tt("find", "--", query).stderr
            self.assertEqual(said.splitlines()[:1], [f"tt: {hint}"] if hint else [], query)
        self.assertIn("there are no phrases", self.tt("between", '"stored plan"').stderr)
        # It is what is said of it: the word `horizon` is looked for.
        self.assertEqual(self.tt("find", "--tsv", "--", "plan -horizon").stdout, "2\tlaw\n")

    @needs("queries", "utf8")
    def test_a_fault_is_shown_below_the_line(self) -> None:
        for query, shown in FAULTS.items():
            for words in (["find"], ["between"]):
                said = self.tt(*words, "--", query, status=1).stderr
                self.assertEqual(said, "tt: what is asked is no query\n" + shown)
        self.assertEqual(self.tt("find", "  closed)  ", status=1).stderr, "tt: what is asked is no query\n" + FAULTS["closed)"])

    @needs("queries", "utf8")
    def test_snippets(self) -> None:
        done = self.tt("find", "plan and not ferry", "--snippets")
        self.assertEqual(done.stdout.splitlines()[:5], [
            "score  document", "1      law", "         A stored plan and a horizon.",
            "1      road", "         The plan of the road, without a far view.",
        ])  # fmt: skip
        done = self.tt("find", "strasse", "--snippets", "--tsv", "--limit", 1)
        score, name, shown = done.stdout.rstrip("\n").split("\t")
        self.assertEqual((score, name), ("3", "straße"))
        self.assertRegex(shown, r"^Die Straße über die Brücke\. Und.*… ….*weiter\. Noch eine STRASSE hier, und keine zweite Straße dort\.$")
        self.fill([Version(START + DAY, "odd", "a plan\x1b[2J\nof two\tlines")])
        self.assertIn("a plan\\x1b[2J of two lines\n", self.tt("find", "plan", "--snippets").stdout)

    @unittest.skipUnless(shutil.which("parallel"), "GNU parallel isn't installed")
    def test_snippets_by_parallel(self) -> None:
        self.tt("shard", 2, self.folder / "shards")
        self.assertIn("leave out", self.tt("-C", self.folder / "shards", "find", "plan", "--snippets", "--parallel", status=1).stderr)


class Words(unittest.TestCase):
    def test_the_words_that_score(self) -> None:
        self.assertEqual(scoring_keys("red and not (blue or not GREEN) or not not grey"), {"red", "green", "grey"})
        self.assertEqual(scoring_keys("(a b) -c not d"), {"a", "b", "c"})

    def test_parts_are_the_text(self) -> None:
        for text in (*TEXTS.values(), "", "plan", "plan plans PLAN", "e\u0301 é x"):
            found = list(parts(text, {key_of("plan"), key_of("é"), key_of("strasse")}))
            self.assertEqual("".join(part.text for part in found), text)
        found = [part.text for part in parts("plan plans PLAN; e\u0301 é e", {key_of("plan"), key_of("é")}) if part.found]
        self.assertEqual(found, ["plan", "PLAN", "e\u0301", "é"])

    def test_pieces_lie_behind_one_another(self) -> None:
        text = " ".join(f"w{number}" for number in range(100))
        shown = ["".join(part.text for part in piece).strip("…").strip() for piece in pieces(text, {"w20", "w35", "w50"})]
        self.assertEqual(len(shown), 3)
        self.assertTrue(set(shown[0].split()).isdisjoint(shown[1].split()))
        self.assertIn(" ".join(shown), text)

    def test_pieces(self) -> None:
        text = " ".join(f"w{number}" for number in range(100))
        shown = ["".join(part.text for part in piece) for piece in pieces(text, {"w0", "w1", "w50", "w99", "w70", "w80"})]
        self.assertEqual(len(shown), 3)
        self.assertTrue(shown[0].startswith("w0 w1 w2") and shown[0].endswith("…"))
        for piece, word in zip(shown, ("w1", "w50", "w70")):
            self.assertIn(word, piece.strip("…").split(" "))
            self.assertTrue(set(piece.strip("…").split(" ")) <= set(text.split(" ")), piece)
            self.assertLessEqual(len(piece), 90)


if __name__ == "__main__":
    unittest.main()
