"""Tries `handref import` on hands that were played at random and written as producers of PHH, OHH and
logs write them: they come back as the same hands."""
import json
import os
import random
import re
import sys
import tempfile
import unittest
from decimal import Decimal
from pathlib import Path

HERE = Path(__file__).resolve().parent
sys.path[:0] = [str(HERE.parent), str(HERE)]
import handref  # noqa: E402
from handref import single_hands  # noqa: E402
from played_hands import hands  # noqa: E402
from test_import import user  # noqa: E402

IS_QUICK = False
COUNT = int(os.environ.get("HANDREF_TESTS_HANDS", "300"))  # of each form; 10,000 before a release
AMOUNTS = re.compile(r"((ante|big_blind|small_blind|win)_)?amount\Z|rake\Z|starting_stack\Z")


def dollars(chips):
    """Cents as trackers write them."""
    return f"{Decimal(chips) / 100:.2f}"


class Case(unittest.TestCase):
    def setUp(self):
        folder = tempfile.TemporaryDirectory()
        self.addCleanup(folder.cleanup)
        self.folder = Path(folder.name)
        self.out = self.folder / "tidy"

    def same(self, name, notation, made, currency="USD cents", game=None):
        """The file that was made has these hands, with their notes."""
        tables = [{**each.table, **({"currency": currency} if currency else {})} for each in made]
        (self.folder / "base.phhs").write_bytes(single_hands.together(
            map(single_hands.document, tables), "phh"))
        same = handref.compare(self.folder / "base.phhs", "phh", self.out / name, notation, game=game)
        self.assertEqual(same.hands, len(made))

    def all_legal(self, done, count):
        self.assertEqual((done[0], done[2]), (0, ""), done[1][-1500:])
        self.assertIn(f"{count:,} written, 0 left out; {count:,} legal, 0 refused", done[1])


class Phh(Case):
    def test_dollars_and_winnings(self):
        """Decimals, and winnings in place of rakes, as the conversions of old texts have them."""
        made = [each for each in hands(21, COUNT) if len(each.replay.pots) == 1]
        texts = []
        for number, each in enumerate(made, 1):
            table = dict(each.table)
            won = [sum(pot.shares.get(seat, 0) for pot in each.replay.pots)
                   for seat in range(1, len(table["players"]) + 1)]
            table.pop("_rakes", None)
            del table["finishing_stacks"]
            text = single_hands.document(table).decode()
            for key in ("starting_stacks", "antes", "blinds_or_straddles"):
                text = text.replace(f"{key} = {table[key]}", f"{key} = [" + ", ".join(
                    map(dollars, table[key])) + "]")
            text = re.sub(r"^(small_bet|big_bet|min_bet) = (\d+)$", lambda found:
                          f"{found[1]} = {dollars(found[2])}", text, flags=re.M)
            text = re.sub(r"cbr (\d+)", lambda found: f"cbr {dollars(found[1])}", text)
            texts.append(f"[{number}]\n{text}winnings = [" + ", ".join(map(dollars, won))
                         + "]\ncurrency = 'USD'\n\n")
        path = self.folder / "a.phhs"
        path.write_text("".join(texts))
        self.all_legal(user("--out", self.out, path), len(made))
        self.same("a.phhs", "phh", made)


class Ohh(Case):
    def wild(self, value, rnd, name=""):
        """Decimals, members that are null, players who sit out."""
        if isinstance(value, dict):
            found = {key: self.wild(item, rnd, key) for key, item in value.items()}
            if rnd.random() < 0.1:
                found["x" * rnd.randint(1, 3)] = None
            return found
        if isinstance(value, list):
            return [self.wild(item, rnd, name) for item in value]
        return f"<{dollars(value)}>" if AMOUNTS.match(name) and value is not True else value

    def test_both_dialects(self):
        made = [each for each in hands(22, COUNT)]
        tables = [{**each.table, "currency": "USD cents"} for each in made]
        base = single_hands.together(map(single_hands.document, tables), "phh")
        for number, dialect in enumerate(("ohh", "ohh-to")):
            rnd = random.Random(number)
            lines = handref.convert(base, "phh", dialect, drop_notes=True).decode().split("\n\n")
            found = []
            for line in filter(None, lines):
                hand = self.wild(json.loads(line), rnd)
                hand["ohh"]["currency"] = "USD"
                free = [seat for seat in range(1, 11) if seat not in [
                    player["seat"] for player in hand["ohh"]["players"]]]
                if free and rnd.random() < 0.4:
                    hand["ohh"]["players"].insert(rnd.randint(0, 2), {
                        "id": 99, "seat": free[0], "name": "out", "starting_stack": "<7.00>",
                        "is_sitting_out": True})
                found.append(re.sub(r'"<([0-9.]+)>"', r"\1", json.dumps(hand, indent=2)))
            for name, text in (("list", "[" + ",".join(found) + "]"), ("lines", "\r\n".join(found))):
                path = self.folder / f"{name}.ohh"
                path.write_text("\ufeff" + text, newline="")
                self.all_legal(user("--out", self.out, path), len(made))
                own = [each for each in made]
                for each in own:
                    for key in ("year", "month", "day"):  # OHH has a date only with a time
                        each.table.pop(key, None)
                self.same(f"{name}.{dialect}", dialect, own)


class Logs(Case):
    def log(self, seed, players):
        """A match with halves: hands whose chips are even, and their log with half as many."""
        made = hands(seed, 2 * COUNT, ("NT",), (players, players), False, 20000)
        for number, each in enumerate(made):
            for key in ("table", "seats", "seat_count", "year", "month", "day", "players"):
                each.table.pop(key, None)
            each.table["hand"] = number
            each.table["players"] = ["abc"[(seat + number) % players] for seat in range(players)]
        documents = [single_hands.document(each.table) for each in made]
        game = self.folder / "base.game"
        game.write_bytes(handref.game(documents[0], "phh"))
        rows = [row for row in map(self.row, documents, made) if row]
        return [each for _, each in rows][:COUNT], [line for line, _ in rows][:COUNT], game

    def row(self, document, each):
        try:  # an odd chip, or a muck of known cards, has no form in a log
            return handref.convert(document, "phh", "acpc", self.folder / "base.game").decode(), each
        except handref.HandrefError:
            return None

    @staticmethod
    def half(text):
        value = Decimal(text) / 2
        return str(value.quantize(Decimal(1)) if value == int(value) else value)

    def halved(self, line):
        fields = line.rstrip("\n").split(":")
        fields[2] = re.sub(r"r(\d+)", lambda found: "r" + self.half(found[1]), fields[2])
        fields[4] = "|".join(map(self.half, fields[4].split("|")))
        return ":".join(fields)

    def test_half_chips(self):
        made, lines, game = self.log(31, 3)
        halves = [self.halved(line) for line in lines]
        self.assertTrue(any(".5" in line for line in halves))
        (self.folder / "m.log").write_text("# a match\n" + "\n".join(halves) + "\n")
        text = re.sub(r"(blind|stack) = (.*)", lambda found: f"{found[1]} = " + " ".join(
            map(self.half, found[2].split())), game.read_text())
        (self.folder / "m.game").write_text(text)
        game.unlink()
        done = user("--out", self.out, self.folder / "m.log")
        self.all_legal(done, len(made))
        self.assertIn("amounts times 2", done[1])
        for number, each in enumerate(made):
            each.table["hand"] = int(lines[number].split(":")[1])
        self.same("m.log", "acpc", made, "", self.out / "m.game")

    def test_dealer_output(self):
        """What two players got of each hand, from which their hole cards and the names come back."""
        made, lines, game = self.log(32, 2)
        data, text = "".join(lines).encode(), []
        (self.folder / "all.log").write_bytes(data)
        seen = [handref.views(data, game, seat) for seat in (1, 2)]
        names = {int(line.split(":")[1]): line.strip().split(":")[5].split("|") for line in lines}
        players = sorted({name for pair in names.values() for name in pair})
        for number in sorted(names):
            for place in (0, 1):
                player = players.index(names[number][place]) + 1
                text += [f"TO {player} at 1.5 MATCHSTATE:{place}:{number}:{view.betting}:{view.cards}"
                         for view in seen[place] if view.number == number]
        sums = {name: 0 for name in players}
        for line in lines:
            _, _, _, _, values, own = line.strip().split(":")
            for name, value in zip(own.split("|"), values.split("|")):
                sums[name] += int(value)
        text.append("SCORE:" + "|".join(str(sums[name]) for name in players) + ":" + "|".join(players))
        (self.folder / "out.txt").write_text("\n".join(text) + "\n")
        done = user("--out", self.out, "--game", game, self.folder / "out.txt")
        self.all_legal(done, len(made))
        self.assertEqual((self.out / "out.log").read_text().split("\n")[:-2],
                         [line.rstrip("\n") for line in lines])


if __name__ == "__main__":
    unittest.main()
