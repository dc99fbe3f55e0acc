"""Tries `handref import` on texts of sites: hands that were played at random, written as each site
prints them, come back as the same hands; and what is changed in a text is never legal."""
import datetime
import os
import random
import re
import sys
import tempfile
import unittest
from pathlib import Path

HERE = Path(__file__).resolve().parent
sys.path[:0] = [str(HERE.parent), str(HERE)]
import handref  # noqa: E402
from handref import single_hands  # noqa: E402
from played_hands import hands  # noqa: E402
from test_import import user  # noqa: E402
from wild_texts import Text, base_of  # noqa: E402

IS_QUICK = False
COUNT = int(os.environ.get("HANDREF_TESTS_HANDS", "300"))  # of each form; 10,000 before a release
SITES = ("pokerstars", "ggpoker", "winamax")


class Case(unittest.TestCase):
    def setUp(self):
        folder = tempfile.TemporaryDirectory()
        self.addCleanup(folder.cleanup)
        self.folder = Path(folder.name)
        self.out = self.folder / "tidy"


def base(made, site, times):
    """The hand that has to come back: cash in cents, chips as they are."""
    table = base_of(made, site)
    table["time"] = datetime.time(20, 14, 5)
    if not made.is_tournament:
        own = "EUR" if site == "winamax" else "USD"
        table["currency"] = f"{own} cents" if times == 100 else own
    return single_hands.document(table)


class Same(Case):
    def test_sites(self):
        """Each hand comes back as the same hand, with all its notes."""
        for number, site in enumerate(SITES):
            made = hands(number + 1, COUNT)
            path = self.folder / f"{site}.txt"
            path.write_text("".join(Text(each, site).document() for each in made))
            done = user("--out", self.out, path)
            self.assertEqual(done[0], 0, done[1][-2000:])
            self.assertIn(f"{COUNT:,} written, 0 left out; {COUNT:,} legal, 0 refused", done[1])
            (self.folder / "base.phhs").write_bytes(single_hands.together(
                [base(each, site, 100) for each in made], "phh"))
            same = handref.compare(self.out / f"{site}.phhs", "phh", self.folder / "base.phhs", "phh")
            self.assertEqual(same.hands, COUNT)


AMOUNT = re.compile(r"(?<=[$ (])[0-9][0-9,]*(?:\.[0-9]+)?(?=[€ )/\n.|]|$)")


class Changed(Case):
    def changes(self, text, rnd):
        """A text with one thing changed: an amount by the least unit, a card, a raise."""
        lines = text.split("\n")
        # Winamax says once how large a bet is that nobody calls.
        words = r"calls|raises|collected|Uncalled|Total|posts|Rake"
        words += "" if text.startswith("Winamax") else "|bets"
        places = [place for place, line in enumerate(lines) if place > 1 and re.search(words, line)
                  and AMOUNT.search(line)]
        place = rnd.choice(places)
        found = rnd.choice(list(AMOUNT.finditer(lines[place])))
        number = found[0].replace(",", "")
        digits = number.partition(".")[2]
        new = f"{float(number) + rnd.choice((-1, 1)) / 10 ** len(digits):.{len(digits)}f}"
        if float(new) <= 0:
            new = "3"
        lines[place] = lines[place][:found.start()] + new + lines[place][found.end():]
        return "\n".join(lines)

    def test_sums(self):
        """An amount that is off by one makes a hand that is left out or refused."""
        rnd = random.Random(5)
        for number, site in enumerate(SITES):
            made = [each for each in hands(number + 50, COUNT, with_rake=False)]
            texts = [self.changes(Text(each, site).document(), rnd) for each in made]
            path = self.folder / f"{site}.txt"
            path.write_text("".join(texts))
            journal = self.folder / f"{site}.journal"
            done = user("--out", self.out, "--journal", journal, path)
            self.assertIn(done[0], (1, 3))
            self.legal(journal, texts, done)

    def legal(self, journal, texts, done):
        import json
        rows = [json.loads(line) for line in journal.read_text().splitlines()]
        legal = [row["hand"] for row in rows if row.get("verdict") == "legal"]
        self.assertEqual(legal, [], texts[legal[0] - 1] if legal else "")

    def test_cards(self):
        """A card that is twice in a hand makes a hand that is left out or refused."""
        rnd = random.Random(6)
        for number, site in enumerate(SITES):
            texts = []
            for each in hands(number + 70, COUNT):
                text = Text(each, site).document()
                board = re.search(r"\*\*\* FLOP \*\*\* \[(..)", text)
                hole = re.search(r"(?:Dealt to .*|shows) \[([2-9TJQKA][cdhs])", text)
                if board and hole:
                    texts.append(re.sub(rf"\b{hole[1]}\b", board[1], text))
            path = self.folder / f"{site}.txt"
            path.write_text("".join(texts))
            journal = self.folder / f"{site}.journal"
            done = user("--out", self.out, "--journal", journal, path)
            self.legal(journal, texts, done)
        del rnd


if __name__ == "__main__":
    unittest.main()
