"""Tries `handref import` on files as their producers write them, as it is called by a user."""
import datetime
import gzip
import hashlib
import json
import os
import re
import subprocess
import sys
import tempfile
import unittest
from decimal import Decimal
from pathlib import Path

HERE = Path(__file__).resolve().parent
sys.path.insert(0, str(HERE.parent))
import handref  # noqa: E402
from handref import formats, toml  # noqa: E402
from handref.importing import amounts, rules  # noqa: E402

IS_QUICK = False
WILD, MADE = HERE / "wild", HERE / "wild-made"
EXAMPLES = HERE.parent.parent / "examples"
FOLDS = (EXAMPLES / "folds.phh").read_text()
CASH = (FOLDS.replace("100, 100, 100", "1.00, 1, 1.00").replace("1, 2, 0", "0.01, 0.02, 0")
        .replace("min_bet = 2", "min_bet = 0.02").replace("cbr 6", "cbr 0.06"))
# What comes of each file: how many hands are legal, refused, left out; and the end of its file.
FILES = {
    "pluribus-fold.phh": (1, 0, 0), "pluribus-odd-split.phh": (1, 0, 0),
    "pluribus-half-chips.phh": (1, 0, 0), "pluribus-all-in.phh": (1, 0, 0),
    "wsop-big-blind-ante.phh": (1, 0, 0), "wsop-badugi.phh": (1, 0, 0),
    "arieh-yockey.phh": (1, 0, 0), "wsop-razz.phh": (1, 0, 0), "wsop-wrong-finish.phh": (0, 1, 0),
    "antonius-blom.phh": (1, 0, 0), "phua-xuan.phh": (1, 0, 0), "alice-carol.phh": (1, 0, 0),
    "handhq.phhs": (2, 0, 0), "winnings.phhs": (1, 0, 0), "negative-blind.phh": (0, 0, 1),
    "straddle-and-muck.phh": (1, 0, 0), "stops-early.phh": (0, 0, 1), "rank-only.phh": (0, 0, 1),
    "tracker-cash.ohh": (1, 0, 0), "tournament.ohh": (1, 0, 0), "tournament-points.ohh": (1, 0, 0),
    "late-post.ohh": (0, 0, 1), "sitting-out.ohh": (1, 0, 0), "dead-small-blind.ohh": (1, 0, 0),
    "dead-button.ohh": (1, 0, 0), "coinpoker.ohh": (1, 0, 0), "no-empty-line.ohh": (2, 0, 0),
    "json-list.ohh": (2, 0, 0), "omaha-hi-lo.ohh": (0, 0, 1),
    "returned-bet-in-pot.ohh": (0, 0, 1), "nulls.ohh": (1, 0, 0),
    "no-limit.log": (3, 0, 0), "limit.log": (2, 0, 0), "half-chips.log": (1, 0, 0),
    "kuhn.log": (0, 0, 1), "leduc.log": (0, 0, 1), "deepstack.log": (3, 0, 0),
    "wrong-score.log": (3, 0, 0), "timing-lines.log": (2, 0, 0), "dealer-output.txt": (2, 0, 0),
    "seats-exchanged.log": (2, 0, 0), "comments.log": (1, 0, 0),
    "pokerstars.txt": (1, 0, 0), "ggpoker.txt": (1, 0, 0), "winamax.txt": (2, 0, 0),
    "stars.txt": (3, 0, 1)}


def user(*words, given=b"", folder=None):
    """A call as on a user's machine: the status, the output, and what went to standard error."""
    done = subprocess.run(
        [sys.executable, "-m", "handref", "import", *map(str, words)], input=given, cwd=folder,
        capture_output=True, env={"PATH": "/usr/bin:/bin", "HOME": "/tmp", "LANG": "C.UTF-8",
                                  "PYTHONPATH": str(HERE.parent), "HANDREF_PROGRAM": os.path.abspath(
                                      os.environ.get("HANDREF_PROGRAM") or "handref")})
    return done.returncode, done.stdout.decode(), done.stderr.decode()


class Case(unittest.TestCase):
    def setUp(self):
        folder = tempfile.TemporaryDirectory()
        self.addCleanup(folder.cleanup)
        self.folder = Path(folder.name)
        self.out = self.folder / "tidy"

    def put(self, name, data):
        path = self.folder / name
        path.parent.mkdir(exist_ok=True)
        path.write_bytes(data.encode() if isinstance(data, str) else data)
        return path

    def table(self, data, *words, name="hand.phh", status=0):
        """The one table that is made of a hand of PHH."""
        self.put(name, data)
        done = user("--out", self.out, *words, self.folder / name)
        self.assertEqual((done[0], done[2]), (status, ""), done)
        return toml.read((self.out / name).read_text())


class Files(Case):
    def test_each_file(self):
        """Each file as its producers write it: what is legal, what is refused, what is left out."""
        journal = self.folder / "journal"
        user("--out", self.out, "--journal", journal, WILD)
        found = {name: [0, 0, 0] for name in FILES}
        for row in map(json.loads, journal.read_text().splitlines()):
            if "bytes" in row:
                kind = 2 if "left out" in row else 0 if row["verdict"] == "legal" else 1
                found[Path(row["source"]).name][kind] += 1
        self.assertEqual({name: tuple(counts) for name, counts in found.items()}, FILES)

    def test_status(self):
        """0 only if every hand was written and is legal, and every SCORE is the sum."""
        for name, status in (("pluribus-fold.phh", 0), ("wsop-wrong-finish.phh", 1),
                             ("stops-early.phh", 3), ("wrong-score.log", 1), ("kuhn.log", 3)):
            self.assertEqual(user("--check", WILD / name)[0], status, name)

    def test_the_folder(self):
        """The whole folder: its lines, its files and its journal, as they were looked at by hand."""
        journal = self.folder / "journal"
        done = user("--out", self.out, "--journal", journal, "wild", folder=HERE)
        self.assertEqual(done[2], "")
        made = {"lines": done[1].replace(str(self.out), "tidy"),
                "journal": journal.read_text()}
        made.update({str(path.relative_to(self.out)): path.read_text() for path in
                     self.out.rglob("*") if path.name != ".handref-import"})
        if os.environ.get("HANDREF_TESTS_WRITE"):  # look at what changes with git diff
            for name, text in made.items():
                (MADE / name).parent.mkdir(exist_ok=True, parents=True)
                (MADE / name).write_text(text)
        wanted = {str(path.relative_to(MADE)): path.read_text() for path in MADE.rglob("*")}
        for name in sorted({*made, *wanted}):
            self.assertEqual(made.get(name), wanted.get(name), name)

    def test_what_is_made_is_legal(self):
        """The proved program takes the folder that was made, and says the same of it."""
        user("--out", self.out, WILD)
        files = [str(path) for path in self.out.iterdir() if path.suffix not in (".log", ".game")
                 and formats.notation_of(str(path))]
        done = subprocess.run([sys.executable, "-m", "handref", "many", "check", "-k", *files],
                              capture_output=True, env={**os.environ, "PYTHONPATH": str(HERE.parent)})
        said = done.stdout.decode()
        self.assertIn("wsop-wrong-finish.phh: refused: hand 1: finish p4 stated 7350000, "
                      "replayed 7450000", said)
        self.assertIn(f"legal files: {len(files) - 1} of {len(files)}", said)


class Promise(Case):
    def test_check_writes_nothing(self):
        path = self.put("wild/a.phh", CASH)
        done = user("--check", path.parent)
        self.assertEqual(done[0], 0)
        self.assertEqual(sorted(each.name for each in self.folder.rglob("*")), ["a.phh", "wild"])
        self.assertEqual(user("--check", "--out", self.out, path)[0], 2)
        self.assertEqual(user(path)[0], 2)

    def test_nothing_else_is_replaced(self):
        """A file that no import has made stays, also where an import has made its name before."""
        path = self.put("a.phh", CASH)
        self.assertEqual(user("--out", self.out, path)[0], 0)
        self.assertEqual(user("--out", self.out, path)[0], 0)
        (self.out / "a.phh").write_text("mine")
        done = user("--out", self.out, path)
        self.assertEqual((done[0], done[2]), (2, f"{self.out}/a.phh: it is there, and no import has "
                                              "made it as it is; --force replaces it\n"))
        self.assertEqual((self.out / "a.phh").read_text(), "mine")
        self.assertEqual(user("--out", self.out, "--force", path)[0], 0)
        self.assertNotEqual((self.out / "a.phh").read_text(), "mine")
        self.assertEqual(user("--out", self.folder, self.folder)[0], 2)

    def test_what_is_not_made_any_more(self):
        """A list of hands that are left out goes away when none is left out any more."""
        path = self.put("a.phh", (WILD / "stops-early.phh").read_bytes())
        self.assertEqual(user("--out", self.out, path)[0], 3)
        self.assertTrue((self.out / "a.phh.left-out").exists())
        self.put("a.phh", FOLDS)
        self.assertEqual(user("--out", self.out, path)[0], 0)
        self.assertEqual(sorted(os.listdir(self.out)), [".handref-import", "a.phh"])

    def test_a_hand_keeps_the_number_of_its_place(self):
        """Where a hand before it is left out: as `convert` counts the hands of the whole file."""
        one = FOLDS.replace("AhKh", "A?Kh")
        numbered = [FOLDS, FOLDS + "hand = 77\n", FOLDS + "hand = ''\n", FOLDS]
        for name, first in (("whole.phhs", FOLDS), ("some.phhs", one)):
            self.put(name, "\n".join(f"[{number}]  # a table\n{table}" for number, table
                                     in enumerate([first, *numbered], 1)))
        done = user("--out", self.out, self.folder / "some.phhs")
        self.assertEqual((done[0], done[2]), (3, ""), done)
        self.assertIn("4 written, 1 left out; 4 legal", done[1])
        found = [re.findall(r'"game_number":"([^"]*)"', handref.convert(path, "phh", "ohh").decode())
                 for path in (self.folder / "whole.phhs", self.out / "some.phhs")]
        self.assertEqual(found, [["0", "1", "77", "3", "4"], ["1", "77", "3", "4"]])

    def test_rules_off(self):
        """Each rule can be turned off; the hand is then as it was, and judged so."""
        for name, rule, said in (
                ("straddle-and-muck.phh", "muck-dash", "BadAction"),
                ("antonius-blom.phh", "unit", "AmountNotWhole"),
                ("nulls.ohh", "nulls", "WrongType"), ("sitting-out.ohh", "not-dealt-in", "refused"),
                ("dead-button.ohh", "dead-button", "BadPlayer"),
                ("dead-small-blind.ohh", "dead-small-blind", "BadPost"),
                ("no-empty-line.ohh", "documents", "no JSON"),
                ("half-chips.log", "unit", "not whole times 1"), ("dealer-output.txt", "dealer-output",
                                                         "a line of MATCHSTATE")):
            done = user("--check", "--not", rule, WILD / name)
            with self.subTest(rule):
                self.assertIn(done[0], (1, 3), done)
                self.assertIn(said, done[1])
                self.assertIn("0 legal", done[1])
        done = user("--check", "--not", "score", WILD / "wrong-score.log")
        self.assertEqual(done[0], 0)
        done = user("--check", "--not", "winnings", WILD / "winnings.phhs")
        self.assertEqual(done[1], "1 hand of 1 file: 1 written, 0 left out; 1 legal, 0 refused\n")
        self.assertEqual(user("--check", "--not", "nothing", WILD)[0], 2)

    def test_rules_are_listed(self):
        """The rules that --rules lists are the table of the document."""
        done = user("--rules")
        self.assertEqual(re.findall(r"^([a-z-]+) \(", done[1], re.M), list(rules.NAMES))
        text = (HERE.parent.parent / "docs" / "IMPORT.md").read_text()
        rows = re.findall(r"^### ([a-z-]+)\n\n(.*?)\.\n\n- Sees: (.*?)\.\n- Writes: (.*?)\.\n"
                          r"- The same hand, because (.*?)\.\n- Example: .", text, re.M | re.S)
        self.assertEqual([tuple(" ".join(cell.split()) for cell in row) for row in rows],
                         [(rule.name, rule.sources, rule.sees, rule.writes, rule.why)
                          for rule in rules.RULES])

    def test_journal(self):
        """Each written hand is traced to its bytes: the sum of the source, and the place in it."""
        data = b"# before\n[1]\n" + CASH.encode() + b"\n[2]\n" + FOLDS.encode()
        path = self.put("a.phhs", data)
        journal = self.folder / "journal"
        self.assertEqual(user("--out", self.out, "--journal", journal, path)[0], 0)
        rows = [json.loads(line) for line in journal.read_text().splitlines()]
        self.assertEqual({row["sha256"] for row in rows}, {hashlib.sha256(data).hexdigest()})
        self.assertEqual({row["source"] for row in rows}, {str(path)})
        hands = [row for row in rows if "out" in row]
        self.assertEqual([(row["hand"], row["out"], row["place"], row["times"]) for row in hands],
                         [(1, "a.phhs", 1, 100), (2, "a.phhs", 2, 100)])
        self.assertEqual(b"".join(data[slice(*row["bytes"])] for row in hands), data[9:])
        self.assertEqual(user("--out", self.out, "--journal", journal, path)[0], 2)
        journal.unlink()
        user("--out", self.out, "--journal", journal, WILD / "straddle-and-muck.phh")
        row = json.loads(journal.read_text().splitlines()[0])
        self.assertEqual((row["rule"], row["before"], row["after"]), ("muck-dash", "p4 sm -", "p4 sm"))

    def test_all_or_nothing_is_said(self):
        """What cannot be read is named, and the others are imported."""
        self.put("wild/a.phh", CASH)
        self.put("wild/b.phh", b"variant = 'NT'\nx = '\n")
        self.put("wild/c.md", "no hands")
        self.put("wild/d.phhs", "[1]\nx = 1\n[a]\ny = 2\n")
        done = user("--out", self.out, self.folder / "wild")
        self.assertEqual(done[0], 3)
        self.assertIn("b.phh: 1 hand, 1 left out (b.phh.left-out): 1 a text that is no TOML", done[1])
        self.assertIn("d.phhs:3: a file that is not cut at its hands: this table is not a hand",
                      done[1])
        self.assertIn(f"not read: 1 file without hands: {self.folder}/wild/c.md", done[1])
        self.assertIn("b.phh:2: hand 1: a text that is no TOML", (self.out / "b.phh.left-out")
                      .read_text())
        self.assertTrue((self.out / "a.phh").exists())

    def test_packed_and_standard_input(self):
        self.put("wild/a.phh.gz", gzip.compress(CASH.encode()))
        self.assertEqual(user("--out", self.out, self.folder / "wild")[0], 0)
        self.assertEqual(toml.read((self.out / "a.phh").read_text())["currency"], "cents")
        done = user("--out", self.out, "-", given=CASH.encode())
        self.assertEqual(done[0], 0)
        self.assertEqual(toml.read((self.out / "stdin.phhs").read_text())["min_bet"], 2)
        self.put("wild/b.phh.gz", gzip.compress(CASH.encode())[:40])
        self.assertEqual(user("--out", self.out, self.folder / "wild")[0], 5)

    def test_two_files_of_one_name(self):
        self.put("wild/a.phhs", "[1]\n" + FOLDS)
        self.put("wild/a.phhs.gz", gzip.compress(b"[1]\n" + CASH.encode()))
        self.assertEqual(user("--out", self.out, self.folder / "wild")[0], 0)
        self.assertEqual(len([name for name in os.listdir(self.out) if name.startswith("a.")]), 2)


class Mended(Case):
    def other(self, *words):
        done = subprocess.run([sys.executable, "-m", "handref", *map(str, words)], capture_output=True,
                              env={**os.environ, "PYTHONPATH": str(HERE.parent)})
        return " ".join((done.stdout + done.stderr).decode().split())

    def test_check(self):
        said = self.other("many", "check", WILD / "antonius-blom.phh", WILD / "dead-small-blind.ohh")
        self.assertIn("handref import may mend: AmountNotWhole, BadPost", said)
        self.assertNotIn("may mend", self.other("many", "check", EXAMPLES / "small_raise.phh"))


class Restore(Case):
    def many(self, *words):
        done = subprocess.run([sys.executable, "-m", "handref", "many", "convert", *map(str, words)],
                              capture_output=True, env={**os.environ, "PYTHONPATH": str(HERE.parent)})
        return done.returncode, done.stdout.decode() + done.stderr.decode()

    def test_keys(self):
        """Keys that handref does not keep come back after a conversion there and back."""
        self.put("wild/a.phhs", "[1]\n" + FOLDS + "event = 'Main # 1'\nlevel = 27\n[2]\n"
                 + FOLDS + "[3]\n" + FOLDS + "'odd key' = [1, 2]\ncity = \"Las\\nVegas\"\n")
        self.put("wild/deep/b.phh", FOLDS + "url = 'https://example.org'\ntime_banks = [1, 2, 3]\n")
        self.assertEqual(user("--out", self.out, self.folder / "wild")[0], 0)
        keys, ohh, back = self.out / "other-keys.jsonl", self.folder / "ohh", self.folder / "back"
        self.assertEqual(self.many("--to", "ohh", "--out", ohh, self.out)[0], 0)
        status, said = self.many("--to", "phh", "--restore", keys, "--out", back, ohh)
        self.assertEqual(status, 0, said)
        self.assertIn("keys put back: 3 hands\n", said)
        found = toml.read((back / "a.phh").read_text())
        own = toml.read((self.folder / "wild" / "a.phhs").read_text())
        for key in "123":
            others = {name for name in own[key] if name not in formats.PHH_KEYS}
            self.assertEqual({name: found[key].get(name) for name in others},
                             {name: own[key][name] for name in others})
        self.assertEqual(toml.read((back / "deep" / "b.phh").read_text())["time_banks"], [1, 2, 3])
        self.assertEqual(len(handref.check(back / "a.phh", "phh")), 3)
        self.assertEqual(self.many("--to", "ohh", "--restore", keys, "--out", back, ohh)[0], 2)
        one = self.folder / "one.phh"
        status, said = self.many("--to", "phh", "--restore", keys, "--out", one, ohh / "a.ohh")
        self.assertIn("keys put back: 2 hands", said)
        self.assertEqual(toml.read(one.read_text())["3"]["city"], "Las\nVegas")


class Amounts(Case):
    def test_phh(self):
        table, own = self.table(CASH), toml.read(FOLDS)
        self.assertEqual(table.pop("currency"), "cents")
        self.assertEqual(table, own)

    def test_what_is_kept(self):
        """Comments, layout and other keys are as they were."""
        self.table("# a hand\n" + CASH + "_time = 12.345 # of it\n")
        written = (self.out / "hand.phh").read_text()
        self.assertIn("# a hand\n", written)
        self.assertIn("_time = 12.345 # of it\n", written)
        for before, after in (('currency = "USD"', "USD cents"), ("currency = ''", "cents")):
            self.assertEqual(self.table(CASH + before)["currency"], after)

    def test_units(self):
        """One unit for all amounts of a file, the first that makes all of them whole."""
        for parts, money, chips in ((1, 1, 1), (2, 100, 2), (4, 100, 4), (5, 100, 10),
                                    (10, 100, 10), (20, 100, 100), (100, 100, 100),
                                    (1000, 1000, 1000), (8, 1000, 1000)):
            self.assertEqual((amounts.unit(parts, True), amounts.unit(parts, False)),
                             (money, chips), parts)
        whole = FOLDS.replace("100, 100, 100", "100.00, 100, 100.0").replace("cbr 6", "cbr 6.00")
        self.assertEqual(self.table(whole), toml.read(FOLDS))
        half = FOLDS.replace("100, 100, 100", "100.5, 100, 100")
        self.assertEqual(self.table(half)["starting_stacks"], [201, 200, 200])
        self.assertEqual(self.table(half)["currency"], "1/2")
        self.assertEqual(self.table(half, "--times", "10")["starting_stacks"], [1005, 1000, 1000])
        both = "[1]\n" + half + "[2]\n" + FOLDS.replace("cbr 6", "cbr 6.25")
        tables = self.table(both, name="two.phhs")
        self.assertEqual([tables[key]["starting_stacks"][0] for key in "12"], [402, 400])

    def test_an_odd_pot_stays_odd(self):
        """Whole chips written as 18450.00 are not multiplied: the odd chip of a pot stays one."""
        text = (WILD / "pluribus-odd-split.phh").read_text().replace("10188", "10188.00")
        self.assertEqual(self.table(text)["finishing_stacks"][2], 10188)

    def test_nothing_is_rounded(self):
        for amount in ("0.0000000005", "1.00000000000000000000000000000000001",
                       "1e-999999", "20000000000000.01"):
            path = self.put("a.phh", CASH.replace("min_bet = 0.02", f"min_bet = {amount}"))
            done = user("--check", path)
            self.assertEqual(done[0], 3, done)
            self.assertRegex(done[1], "an amount (above|with more than nine places)")
        path = self.put("a.phh", CASH.replace("0.06", "0.065"))
        self.assertIn("an amount that is not whole times 100", user("--check", "--times", "100",
                                                                  path)[1])

    def test_digits(self):
        """Digits are 0 to 9: those of other scripts are no amounts."""
        for sign in "٦６६":
            path = self.put("a.phh", CASH.replace("cbr 0.06", f"cbr {sign}"))
            done = user("--check", path)
            self.assertIn("1 left out: 1 BadAction", done[1])
            path = self.put("a.phh", CASH.replace("cbr 0.06", f"cbr 0.0{sign}"))
            self.assertIn("1 left out: 1 BadAction", user("--check", path)[1])
            path = self.put("a.log", f"STATE:0:r30{sign}f:9s8h|KdTc:-100.{sign}|100:A|B\n")
            self.assertEqual(user("--check", "--game", WILD / "deepstack.game", path)[0], 3)

    def test_actions(self):
        for action, wanted in (("p3 cbr 0.06", "p3 cbr 6"), ("p3 cbr 0.06 # 1.005", "p3 cbr 6 # 1.005"),
                               ("p3 cbr 1", "p3 cbr 100"), ("  p3 cbr 0.10", "  p3 cbr 10"),
                               ('p3 cbr 0.1#"\\', 'p3 cbr 10#"\\')):
            table = self.table(CASH.replace('"p3 cbr 0.06"', json.dumps(action)), "-j", "1")
            self.assertIn(wanted, table["actions"])

    def test_digits_are_kept(self):
        """A number that is not an amount keeps the digits that it was written with."""
        text = (WILD / "coinpoker.ohh").read_text()
        path = self.put("a.ohh", text.replace('"Hero"', '"Hero","x":1.10000000000000000001'))
        self.assertEqual(user("--out", self.out, path)[0], 0)
        written = (self.out / "a.ohh").read_text()
        self.assertIn('"x":1.10000000000000000001', written)
        self.assertEqual(amounts.parts_of(Decimal("2.50")), 2)

    def test_log_and_game(self):
        """The chips of a log and of its game file are multiplied together: halves by 2, and by 3
        the thirds of a pot that three players share."""
        user("--out", self.out, WILD / "half-chips.log")
        self.assertIn("stack = 40000 40000 40000\nblind = 100 200 0\n",
                      (self.out / "half-chips.game").read_text())
        self.assertIn(":-450|225|225:", (self.out / "half-chips.log").read_text())
        # Three players have a straight, and share the 100 chips that the first one has lost.
        game = "GAMEDEF\nnolimit\nnumPlayers = 4\nnumRounds = 4\nstack = 1000 1000 1000 1000\n" \
            "blind = 50 100 0 0\nfirstPlayer = 3 1 1 1\nnumSuits = 4\nnumRanks = 13\n" \
            "numHoleCards = 2\nnumBoardCards = 0 3 1 1\nEND GAMEDEF\n"
        line = "STATE:0:cccc/cccc/cccc/cccc:2c2d|AsKd|AdKc|AcKh/AhKsQd/Jd/Tc:%s:a|b|c|d\n"
        self.put("t.game", game)
        path = self.put("t.log", line % "-100|33.333333|33.333333|33.333333")
        done = user("--out", self.out, path)
        self.assertEqual(done[0], 1, done)  # the board is a straight: all four share
        path = self.put("t.log", line.replace("Qd/Jd/Tc", "Qd/Jd/3h") % (
            "-100|33.333333|33.333333|33.333333"))
        done = user("--out", self.out, path)
        self.assertEqual(done[0], 0, done)
        self.assertIn(":-300|100|100|100:", (self.out / "t.log").read_text())
        self.assertIn("stack = 3000 3000 3000 3000\n", (self.out / "t.game").read_text())

    def test_dealer_output_with_other_lines(self):
        """Comments between what a dealer sent, and the line of the log after it, make no other hand."""
        text = (WILD / "dealer-output.txt").read_text()
        lines = text.split("\n")
        noted = "\n".join(line + ("\n# a note\n" if line.startswith(("TO", "FROM")) else "") for line in lines)
        user("--out", self.out, "--game", WILD / "dealer-output.game", WILD / "dealer-output.txt")
        logged = {line.split(":")[1]: line for line in (self.out / "dealer-output.log").read_text().split("\n")
                  if line.startswith("STATE")}
        self.assertEqual(len(logged), 2)
        both, ends = [], {}
        for place, line in enumerate(lines):
            if "MATCHSTATE" in line:
                ends[line.split(":")[2]] = place
        for place, line in enumerate(lines):
            both += [line, *(logged[number] for number, end in ends.items() if end == place)]
        wrong = re.sub("^STATE:([0-9]+):", r"STATE:\1:f", "\n".join(both), count=1, flags=re.M)
        for name, data in (("noted", noted), ("both", "\n".join(both)), ("wrong", wrong)):
            done = user("--out", self.out, "--game", WILD / "dealer-output.game", self.put(f"{name}.txt", data))
            if name == "wrong":
                self.assertIn("1 a line of a log that is not what the dealer sent", done[1])
                continue
            self.assertIn("2 written, 0 left out; 2 legal", done[1])
            made = [line for line in (self.out / f"{name}.log").read_text().split("\n") if line.startswith("STATE")]
            self.assertEqual(made, list(logged.values()))

    def test_halves_of_what_a_dealer_sent(self):
        """Half chips that only the SCORE line of a dealer's output has; and one that does not read."""
        head, line, score = (WILD / "half-chips.log").read_text().rstrip("\n").split("\n")
        _, number, betting, cards, _, _ = line.split(":")
        text = f"TO 1 at 1.5 MATCHSTATE:0:{number}:{betting}:{cards}\nTO 2 at 1.5 MATCHSTATE:1:{number}:{betting}:{cards}\n" \
            f"TO 3 at 1.5 MATCHSTATE:2:{number}:{betting}:{cards}\n"
        game = WILD / "holdem.nolimit.3p.game"
        done = user("--out", self.out, "--game", game, self.put("a.txt", text + score + "\n"))
        self.assertEqual((done[0], done[2]), (0, ""), done[1])
        self.assertIn("amounts times 2\n", done[1])
        user("--out", self.out, "--game", game, self.put("b.log", f"{head}\n{line}\n{score}\n"))
        made = [[row for row in (self.out / name).read_text().split("\n") if row[:5] in ("STATE", "SCORE")]
                for name in ("a.log", "b.log")]
        self.assertEqual(made[0], made[1])
        self.assertEqual(len(made[0]), 2)
        for wrong in (score.replace(":-", ":x"), score + ":D", score.replace("|A", "")):
            done = user("--check", "--game", game, self.put("c.log", f"{head}\n{line}\n{wrong}x\n".replace("Cx", "C|x")))
            self.assertEqual(done[0], 1)
            self.assertIn("line 3: SCORE does not read", done[1])

    def test_score(self):
        self.assertIn("wild/wrong-score.log: line 8: SCORE says 20355, due 20350\n",
                      user("--check", "wild/wrong-score.log", folder=HERE)[1])


class Texts(Case):
    def tables(self, name):
        user("--out", self.out, WILD / name)
        found = toml.read((self.out / name.replace(".txt", ".phhs")).read_text())
        return [found[key] for key in found]

    def test_the_same_hand_in_two_forms(self):
        """A text of PokerStars and what a tracker writes of the same hand are the same hand."""
        user("--out", self.out, WILD / "pokerstars.txt", WILD / "tracker-cash.ohh")
        same = handref.compare(self.out / "pokerstars.phhs", "phh", self.out / "tracker-cash.ohh-to",
                               "ohh-to", notes=False)
        self.assertEqual(same.hands, 1)

    def test_sums_by_hand(self):
        """Side pots with a rake from each, a tournament with antes, fixed limit; in cents and chips."""
        zoom, tournament, limit = self.tables("stars.txt")
        # Two put in 2.00, one 1.50: pots of 4.50 and 1.00, of which 4.29 and 0.96 were collected.
        self.assertEqual((zoom["finishing_stacks"], zoom["_rakes"]), ([0, 429, 396], [21, 4]))
        self.assertEqual((zoom["players"], zoom["seats"]), (["two words", "(x)", "a: b"], [2, 3, 1]))
        # 10 + 50 of 1500; 1200 - 300 + 660; 300 all-in.
        self.assertEqual(tournament["finishing_stacks"], [1440, 1560, 0])
        self.assertEqual((tournament["antes"], tournament["ante_trimming_status"]), ([10] * 3, True))
        # 1.00 of each in the pot of 2.00, and 1.95 collected.
        self.assertEqual((limit["variant"], limit["small_bet"], limit["big_bet"]), ("FT", 50, 100))
        self.assertEqual((limit["finishing_stacks"], limit["_rakes"]), ([6075, 5095], [5]))
        cash, chips = self.tables("winamax.txt")
        self.assertEqual((cash["currency"], cash["finishing_stacks"]), ("EUR cents", [4975, 7910, 0]))
        self.assertEqual(chips["finishing_stacks"], [18450 - 125, 22075 - 9050 + 18225, 0])
        self.assertNotIn("currency", chips)

    def changed(self, rows):
        """Texts, each with one thing changed, in one call: of each the cause of the hand that is left
        out beside the one with a dead blind; all others are legal."""
        text = (WILD / "stars.txt").read_text()
        for number, (old, new, _) in enumerate(rows):
            self.assertIn(old, text)
            self.put(f"wild/{number}.txt", text.replace(old, new, 1))
        done = user("--out", self.out, self.folder / "wild")
        count = len(rows)
        self.assertIn(f"{4 * count} hands of {count} files: {2 * count} written, {2 * count} left out; "
                      f"{2 * count} legal, 0 refused", done[1])
        for number, (_, new, said) in enumerate(rows):
            with self.subTest(new):
                self.assertIn(said, (self.out / f"{number}.txt.left-out").read_text())

    def test_what_does_not_agree(self):
        """What a text says twice is compared: each of these is left out, with its cause."""
        self.changed((
                ("raises $0.10 to $0.15", "raises $0.11 to $0.15", "a raise that does not add up"),
                ("calls $1.85", "calls $1.84", "a call that does not add up"),
                ("calls $1.45 and is all-in", "calls $1.40 and is all-in", "a call that does not"),
                ("raises $1.85 to $2 and is", "raises $1.80 to $1.95 and is", "an all-in that is not"),
                ("[2c 7d 9h] [Jc]", "[2c 7d 9s] [Jc]", "a board that does not go on"),
                ("Board [2c 7d 9h Jc 3d]", "Board [2c 7d 9h Jc 3s]", "differs from the summary"),
                ("Total pot $5.50", "Total pot $5.51", "pots that are not what was put in"),
                ("| Rake $0.25", "| Rake $0.24", "not what was collected and the rake"),
                ("(x) collected $4.29", "(x) collected $4.30", "a summary that differs"),
                ("won ($0.96)", "won ($0.97)", "a summary that differs"),
                ("Side pot $0.96.", "Side pot $0.97.", "pots of the summary"),
                ("showed [Kc Kd]", "showed [Kc Kh]", "cards of a player that differ"),
                ("posts small blind $0.02", "posts small blind $0.03", "a blind of another size"),
                ("B: posts the ante 10", "B: posts the ante 9", "antes of different sizes"),
                ("Uncalled bet ($0.50)", "Uncalled bet ($0.40)", "pots that are not what was put in"),
                ("b (big blind) folded on the Flop", "b (big blind) folded before Flop",
                 "a summary that differs")))

    def test_what_has_no_form(self):
        self.changed((
                ("*** FLOP *** [2c 7d 9h]", "*** FIRST FLOP *** [2c 7d 9h]", "run several times"),
                ("y leaves the table", "y cashed out the hand for $1.20 | Cash Out Fee $0.01",
                 "a cash-out"),
                ("and won ($0.96) with", "and won ($0.96) with luck, as it is (pot not awarded as player cashed out)",
                 "a cash-out"),
                ("y leaves the table", "y does something new", "a line that is not known"),
                ("(x): posts big blind $0.05", "(x): posts big blind $0.05\ny: posts big blind $0.05",
                 "a late post"),
                ("Hold'em No Limit ($0.02/$0.05)", "Omaha Hi/Lo Pot Limit ($0.02/$0.05)",
                 "a game that handref does not have"),
                ("Hold'em No Limit ($0.02/$0.05)", "6+ Hold'em No Limit ($0.02/$0.05)",
                 "a game that handref does not have"),
                ("shows [9c 9d] (three", "shows [9c Kc] (three", "cards of a player that differ")))

    def test_other_forms(self):
        """The same hand where a site has written it at another time or for another kind of table."""
        moment = "2024/01/12 20:14:55 ET"
        rows = (
            ("pokerstars.txt", moment, "2024/01/12 - 20:14:55 (ET)", {}),
            ("pokerstars.txt", moment, "2024/01/12 20:14:55 (ET)", {}),
            ("pokerstars.txt", moment, "2024/01/13 2:14:55 CET [2024/01/12 20:14:55 ET]",
             {"day": 13, "time": datetime.time(2, 14, 55), "time_zone": "CET"}),
            ("pokerstars.txt", "' 6-max", "'", {"seat_count": None}),
            ("pokerstars.txt", "PokerStars Hand", "PokerStars Zoom Hand", {}),
            ("pokerstars.txt", "PokerStars Hand", "PokerStars Game", {}),
            ("winamax.txt", "CashGame", 'Go Fast "Colorado"', {}),
            ("winamax.txt", "CashGame", "Escape", {}),
            ("winamax.txt", "Total pot 62.45", "Total pot 59.95", {}),
            ("ggpoker.txt", "Hold'em No Limit ", "PLO ", {"variant": "PO"}))
        for number, (name, old, new, other) in enumerate(rows):
            text = (WILD / name).read_text()
            self.assertIn(old, text)
            text = text.replace(old, new, 1)
            self.put(f"wild/{number}.txt", text.replace("[9c 9d]", "[9c 9d 2c 2d]") if "PLO" in new else text)
        done = user("--out", self.out, self.folder / "wild")
        self.assertEqual((done[0], done[2]), (0, ""), done[1])
        for number, (name, _, new, other) in enumerate(rows):
            with self.subTest(new):
                found = toml.read((self.out / f"{number}.phhs").read_text())["1"]
                wanted = {**self.tables(name)[0], **other}
                if "PLO" in new:
                    for table in (found, wanted):
                        table["actions"] = [action for action in table["actions"] if not action.startswith("d dh")]
                self.assertEqual(found, {key: value for key, value in wanted.items() if value is not None})

    def test_chat_is_no_move(self):
        """What a player says is never taken for a move, and a cut text is never a whole one."""
        text = (WILD / "stars.txt").read_text().replace('said, "hello: folds"', 'said, "(x): folds"')
        self.assertIn("3 legal", user("--check", self.put("chat.txt", text))[1])
        text = (WILD / "pokerstars.txt").read_text()
        done = user("--check", self.put("cut.txt", text[:text.index("*** SUMMARY")]))
        self.assertIn("1 left out: 1 a text that has no end", done[1])
        done = user("--check", self.put("front.txt", "some words\n\n" + text))
        self.assertIn("2 hands, 1 left out: 1 a text before the first hand", done[1])
        done = user("--check", self.put("bom.txt", "\ufeff" + text.replace("\n", "\r\n") * 2))
        self.assertIn("2 legal, 0 refused", done[1])


class Dialects(Case):
    def test_decided(self):
        """A file has a dialect if each of its hands is legal in it, and one of them only there."""
        text = (EXAMPLES / "one_dialect.ohh").read_text()
        path = self.put("a.ohh", text)
        self.assertEqual(user("--out", self.out, path)[0], 0)
        self.assertTrue((self.out / "a.ohh").exists())
        done = user("--out", self.out, WILD / "tracker-cash.ohh")
        self.assertIn("is the total to which it goes (ohh-to)", done[1])
        self.assertTrue((self.out / "tracker-cash.ohh-to").exists())

    def test_not_decided(self):
        """A raise by 250 or to 250: both are legal, so the hand is left out until it is said."""
        text = (EXAMPLES / "raise_adds.ohh").read_text()
        hand = json.loads(text)
        del hand["ohh"]["pots"]
        path = self.put("a.ohh", json.dumps(hand))
        done = user("--check", path)
        self.assertEqual(done[0], 3)
        self.assertIn("1 a dialect that is not clear", done[1])
        for dialect in ("ohh", "ohh-to"):
            self.assertEqual(user("--out", self.out, "--from", dialect, path)[0], 0)
            self.assertTrue((self.out / f"a.{dialect}").exists())

    def test_against_each_other(self):
        """Two hands, each legal in another dialect, decide for none."""
        one = (EXAMPLES / "one_dialect.ohh").read_text()
        two = (self.folder / "b.ohh")
        user("--out", self.out, WILD / "tracker-cash.ohh")
        two.write_text(one + "\n" + (self.out / "tracker-cash.ohh-to").read_text())
        done = user("--check", two)
        self.assertEqual(done[0], 3)
        self.assertIn("2 hands, 2 left out: 2 a dialect that is not clear", done[1])


if __name__ == "__main__":
    unittest.main()
