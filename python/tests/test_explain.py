"""Tries what explain says of each line of docs/MESSAGES.md, and of texts that do not read."""
import copy
import gzip
import json
import os
import re
import shutil
import subprocess
import unittest
from unittest import mock

from pages import EXAMPLES, HERE, MATCH, Case

import handref
from handref import explain, explain_text, messages, places, site_texts, sources, toml
from handref.importing import sites

MESSAGES = HERE.parent.parent / "docs" / "MESSAGES.md"
# Runs the program for an example, and keeps the input; a large one is not run.
PROGRAM = """#!/bin/sh
rm -rf "$CALL"; mkdir "$CALL"
printf '%s\\n' "$@" > "$CALL/words"
cat > "$CALL/input" 2>/dev/null
[ "$(wc -c < "$CALL/input")" -lt 1000000 ] || exit 0
exec "$HANDREF_PROGRAM" "$@" < "$CALL/input"
"""


class Document(Case):
    """The examples of MESSAGES.md are run as they are printed, and each line is explained."""

    def setUp(self):
        super().setUp()
        if not MESSAGES.exists() or not shutil.which("bash"):
            self.skipTest("docs/MESSAGES.md or bash is not here")
        self.here = self.folder / "here"
        self.here.mkdir()
        shutil.copytree(EXAMPLES, self.here / "examples")
        (self.folder / "bin").mkdir()
        program = self.folder / "bin" / "handref"
        program.write_text(PROGRAM)
        program.chmod(0o755)
        own = os.environ.get("HANDREF_PROGRAM") or shutil.which("handref")
        self.call = self.folder / "call"
        self.environment = {**os.environ, "HANDREF_PROGRAM": str(own), "CALL": str(self.call),
                            "PATH": f"{program.parent}:{os.environ['PATH']}"}

    def examples(self):
        """The commands of the document with the last line that they print and their status."""
        for block in re.findall(r"^```console\n(.*?)^```", MESSAGES.read_text(), re.M | re.S):
            for example in re.split(r"^\$ ", block, flags=re.M)[1:]:
                command, *rest = example.rstrip("\n").split("\n")
                while rest and rest[0].startswith("> "):
                    command += "\n" + rest.pop(0)[2:]
                status = re.fullmatch(r"\[(\d+)\]", rest[-1]) if rest else None
                if status and len(rest) > 1:
                    yield command, rest[-2], int(status[1])

    def explained(self, command, line):
        """The explanation of a line, of the input that the program had."""
        shutil.rmtree(self.call, ignore_errors=True)
        subprocess.run(["bash", "-c", command], cwd=self.here, env=self.environment,
                       stdin=subprocess.DEVNULL, capture_output=True)
        words = (self.call / "words").read_text().split("\n")[:-1]
        asked = dict(zip(words, words[1:]))
        notation = asked.get("--from", "phh")
        hands = self.here / "input"
        hands.write_bytes((self.call / "input").read_bytes())
        game = self.here / asked["--game"] if "--game" in asked else None
        return explain.explain(hands, notation if notation in messages.SECTIONS else "phh", game,
                               line), notation

    def test_examples(self):
        """Each line has a meaning; one about a place has its line and column; one about an event
        has what is legal there; and no sentence is missing."""
        count = 0
        for command, line, status in self.examples():
            with self.subTest(command=command, line=line):
                found, _ = self.explained(command, line)
                error = handref.error_of(status, line)
                self.assertEqual((found.status, found.line), (status, line))
                self.assertGreater(len(found.meaning), 10)
                self.assertIn(line, str(found))
                if status in (1, 4, 10) or status == 3 and not line.startswith("file: "):
                    self.assertIsNotNone(found.spot)
                    self.assertNotEqual(found.spot.text[found.spot.column - 1:], None)
                    self.assertLessEqual(found.spot.column, len(found.spot.text) + 1)
                if status == 1 and error.action is not None:
                    said = "\n".join(found.facts)
                    self.assertRegex(said, "Chips after |Chips before ")
                    if error.reason != "UpCardUnknown":
                        self.assertRegex(said, "Legal there: |The hand is over there")
                count += 1
        self.assertGreater(count, 80)

    def test_rows(self):
        """The lines of the tables and those of the script have a meaning, too."""
        for part in messages.parts():
            for name in part.names if part.status in (7, 70) else ():
                line = name if part.status == 7 else f"handref: {name.replace('..', 'so')}"
                if line in ("Line", "handref: Line"):
                    continue
                found = explain.of_line(line)
                self.assertEqual(found.status, part.status, line)
                self.assertIn(part.text[:30], found.meaning, line)

    def test_names(self):
        """Each name of the list from A to Z is found under each of its statuses."""
        text = MESSAGES.read_text()
        listed = text[text.index("## Names"):text.index("## 0 ")]
        starts = {1: "refused: hand 1: event 1, action 1: ", 3: "bad input: hand 1, actions: ",
                  4: "unspelled: hand 1: ", 10: "bad game: line 1: ", 14: "differs: hand 1: "}
        count = 0
        for name, statuses in re.findall(r"^\[`(\w+)`\]\(\S+\) (.*?)(?: ·)?$", listed, re.M):
            for status in map(int, re.findall(r"\d+", re.sub(r"\(\S*\)", "", statuses))):
                line = starts[status] + name + (" year" if name == "Note" else "")
                self.assertTrue(explain.of_line(line).meaning, line)
                count += 1
        self.assertGreater(count, 45)

    def test_files(self):
        """All examples that are refused are explained without a line as well."""
        for path in sorted(EXAMPLES.iterdir()):
            notation = {".phh": "phh", ".ohh": "ohh", ".ohh-to": "ohh-to"}.get(path.suffix)
            if notation is None:
                continue
            with self.subTest(path=path.name):
                found = explain.explain(path, notation)
                try:
                    hands = len(handref.check(path, notation))
                    self.assertIn(f"nothing is wrong: {hands} hand", str(found))
                except handref.HandrefError as error:
                    self.assertEqual(found.line, error.line)
                    self.assertTrue(found.spot and found.facts and found.meaning)


class Texts(Case):
    """What is wrong with bytes that are no text of their notation."""

    def why(self, data, notation="phh"):
        found, said = explain_text.why(data, notation)
        return (found.line, found.column) if found else None, " ".join(said)

    def test_bytes(self):
        hand = (EXAMPLES / "folds.phh").read_text()
        named = hand.rstrip("\n") + '\nplayers = ["Zoé", "B", "C"]\n'
        line = named.count("\n")
        place, said = self.why(named.encode("latin-1"))
        self.assertEqual(place, (line, 15))
        self.assertIn("0xe9, which is no UTF-8 here", said)
        self.assertIn("iconv -f LATIN1", said)
        quoted = named.replace("é", "“").encode("cp1252")
        self.assertIn("iconv -f WINDOWS-1252", self.why(quoted)[1])
        for code in ("utf-16", "utf-16-le", "utf-16-be", "utf-32"):
            self.assertIn("iconv -f " + code.upper()[:6], self.why(hand.encode(code))[1])
        self.assertIn("packed by gzip", self.why(gzip.compress(hand.encode()))[1])
        half = named.encode()[:named.encode().index(0xa9)]
        self.assertIn("ends inside a sign", self.why(half)[1])

    def test_toml(self):
        hand = (EXAMPLES / "folds.phh").read_text()
        for old, new, wanted, place in (
                ("min_bet = 2\n", "min_bet = 2\nmin_bet = 2\n", "the first one is on line 4",
                 (5, 1)),
                ('variant = "NT"', 'venue = "C:\\hands"', r"\h is no escape", (1, 12)),
                ("antes = [0, 0, 0]", "antes = [0, 0, 0", "comma or the end of the list", (3, 1)),
                ('"NT"', '"NT', "closing quote is missing", (1, 11)),
                ('"NT"', "NT", "a text needs quotes", (1, 11)),
                ("min_bet = 2", "min_bet 2", "without = and a value", (4, 9))):
            with self.subTest(new=new):
                self.assertIn(old, hand)
                found, said = self.why(hand.replace(old, new, 1).encode())
                self.assertIn(wanted, said)
                self.assertEqual(found, place)
        self.assertIn("cut off", self.why(hand[:-30].encode())[1])
        self.assertIn("--from ohh", self.why((EXAMPLES / "rake.ohh").read_bytes())[1])

    def test_json(self):
        hand = (EXAMPLES / "raise_adds.ohh").read_text().strip()
        for data, wanted in ((hand[:300], "cut off"), ("\ufeff" + hand, "byte order mark"),
                             (hand + "\n" + hand, "an empty line has to divide two hands"),
                             (hand.replace('"', "'"), "double quotes"),
                             (hand.replace("}}", "},}"), "expected"),
                             (hand.replace('"A"', '"\\h"'), "no escape of JSON"),
                             (hand.replace('"A"', "NaN"), "NaN is no number"),
                             (hand.replace('"A"', '"\\ud800"'), "one half of a sign"),
                             (hand.replace('"A"', '"A\nB"'), "control character"),
                             ("variant = 'NT'", "--from phh")):
            with self.subTest(wanted=wanted):
                self.assertIn(wanted, self.why(data.encode(), "ohh")[1])
                with self.assertRaises(handref.HandrefError):
                    handref.check(data.encode(), "ohh")


class Games(Case):
    def test_shape(self):
        """A fault of a game file names its line and its key."""
        text = MATCH.read_text()
        for old, new, line, wanted in (
                ("numHoleCards = 2\n", "", 11, "without the key numHoleCards"),
                ("numBoardCards", "numBordCards", 11, "Perhaps numBoardCards is meant"),
                ("20000 20000", "20,000 20000", 5, "20,000 is no number"),
                ("20000 20000", "20000", 12, "stack has 1 number, and numPlayers says 2 players"),
                ("numSuits = 4", "numSuits = 4 ", 8, "ends with a space"),
                ("numSuits = 4", "numSuits\t= 4", 8, "has a tab"),
                ("numSuits = 4", "numSuits 4", 8, "no key"),
                ("0 3 1 1", "0 3 1", 11, "numBoardCards has 3 numbers, and needs 4"),
                ("blind = 100 50\n", "blind = 100 50\nblind = 100 50\n", 7, "a second time"),
                ("nolimit\n", "", 11, "neither limit nor nolimit"),
                ("GAMEDEF\n", "", 1, "The first line of a game file is GAMEDEF"),
                ("END GAMEDEF\n", "", 12, "ends without END GAMEDEF"),
                ("END GAMEDEF\n", "END GAMEDEF\nmore\n", 13, "follows END GAMEDEF")):
            with self.subTest(new=new, wanted=wanted):
                self.assertIn(old, text)
                game = self.folder / "own.game"
                game.write_text(text.replace(old, new, 1))
                with self.assertRaises(handref.HandrefError) as told:
                    handref.check(EXAMPLES / "match.acpc", "acpc", game)
                found = explain.explain(EXAMPLES / "match.acpc", "acpc", game, told.exception.line)
                self.assertEqual(found.spot.line, told.exception.line_number)
                self.assertIn(wanted, " ".join(found.facts))


    def test_other_game(self):
        """Kuhn poker is another game; seats that are exchanged are those of hold'em."""
        kuhn = "GAMEDEF\nlimit\nnumPlayers = 3\nnumRounds = 1\nblind = 1 1 1\nraiseSize = 1\n" \
            "firstPlayer = 1\nmaxRaises = 1\nnumSuits = 1\nnumRanks = 4\nnumHoleCards = 1\n" \
            "numBoardCards = 0\nEND GAMEDEF\n"
        turned = MATCH.read_text().replace("blind = 100 50", "blind = 50 100").replace(
            "firstPlayer = 2 1 1 1", "firstPlayer = 1 2 2 2")
        game = self.folder / "own.game"
        for text, wanted, other in ((kuhn, "numRounds is 1, and 4 in hold'em", "import"),
                                    (turned, "(rule seats-exchanged: ", "no other game")):
            game.write_text(text)
            said = " ".join(explain.explain(EXAMPLES / "match.acpc", "acpc", game).facts)
            self.assertIn(wanted, said)
            self.assertNotIn(other, said)


class Plays(Case):
    def facts(self, data, notation, game=None):
        found = explain.explain(data, notation, game)
        return found, " ".join(found.facts)

    def test_raises(self):
        """The least and the greatest legal raise are legal, and what is outside of them is not."""
        for name, old, notation, game in (
                ("small_raise.phh", "cbr 3", "phh", None),
                ("match.raise.acpc", "r150", "acpc", MATCH),
                ("raise_adds.ohh", '"amount":250', "ohh", None),
                ("raise_goes_to.ohh-to", '"amount":300', "ohh-to", None)):
            with self.subTest(name=name):
                text = (EXAMPLES / name).read_text()
                self.assertIn(old, text)
                word = re.sub(r"\d+", "", old)
                refused = text.replace(old, word + "3", 1)
                _, said = self.facts(refused.encode(), notation, game)
                least, greatest = map(int, re.search(
                    r"least legal raise of p\d is \D*(\d+), the greatest \D*(\d+)", said).groups())
                for amount, is_legal in ((least, True), (greatest, True), (least - 1, False),
                                         (greatest + 1, False)):
                    data = text.replace(old, f"{word}{amount}", 1).encode()
                    refusal = handref.judge(data, notation, game)[0].refused
                    is_raise = refusal is not None and "RaiseToo" in (refusal.reason or "")
                    self.assertEqual(is_raise, not is_legal, (amount, refusal))

    def test_dialect(self):
        _, said = self.facts((EXAMPLES / "one_dialect.ohh").read_bytes(), "ohh-to")
        self.assertIn("Read as ohh the hand is legal: try --from ohh.", said)

    def test_hand_of_many(self):
        """A hand of a file of several is found, and its place is that of the file."""
        hand = (EXAMPLES / "folds.phh").read_text()
        text = "".join(f"[{number}]\n{hand}\n" for number in range(1, 13))
        text = "cbr 3".join(text.rsplit("cbr 6", 2)[:2]) + "cbr 6" + text.rsplit("cbr 6", 2)[2]
        found, said = self.facts(text.encode(), "phh")
        self.assertEqual(found.line, "refused: hand 11: event 4, action 4: RaiseTooSmall")
        self.assertEqual(found.spot.text.strip()[:10], '"p3 cbr 3"')
        self.assertEqual(text.split("\n")[found.spot.line - 1], found.spot.text)
        self.assertIn("the greatest cbr 100", said)

    def test_line_of_log(self):
        log = "# a match\n" + "STATE:0:r300f:9s8h|KdTc:-100|100:A|B\n" * 9
        log += "STATE:9:r150f:9s8h|KdTc:-100|100:A|B\n" * 2
        path = self.folder / "match.log"
        path.write_text(log)
        found, said = self.facts(path, "acpc", MATCH)
        self.assertEqual((found.spot.line, found.spot.column), (11, 9))
        self.assertIn("1 more hand of this file is refused.", said)
        printed = f"{path}: refused: hand 10: event 3, action 1: RaiseTooSmall (line 11)"
        self.assertEqual(explain.explain(path, "acpc", MATCH, printed).spot, found.spot)

    def test_long(self):
        """A log that is longer than an input, also packed, is looked at where the hand is."""
        lines = [b"STATE:%d:r300f:9s8h|KdTc:-100|100:A|B\n" % hand for hand in range(50)]
        lines[40] = lines[40].replace(b"r300", b"r150")
        lines[44] = lines[44].replace(b"r300", b"rx")
        data = b"# a match\n" + b"".join(lines)
        plain, packed = self.folder / "match.acpc", self.folder / "match.acpc.gz"
        plain.write_bytes(data)
        packed.write_bytes(gzip.compress(data))
        with mock.patch.object(handref, "MOST_BYTES", 500), \
                mock.patch.object(sources, "PIECE", 150):
            for path in (plain, packed):
                for line, place in (
                        ("refused: hand 41: event 3, action 1: RaiseTooSmall", (42, 10)),
                        ("bad input: line 46, byte 11: BadBetting", (46, 11))):
                    found = explain.explain(path, "acpc", MATCH, line)
                    self.assertEqual((found.line, found.spot.line, found.spot.column),
                                     (line, *place))
                self.assertEqual(explain.explain(path, "acpc", MATCH).line,
                                 "refused: hand 41: event 3, action 1: RaiseTooSmall")

    def test_other_lines(self):
        with self.assertRaisesRegex(ValueError, "no line of the program"):
            explain.explain(EXAMPLES / "folds.phh", "phh", None, "what is this?")
        found = explain.explain(EXAMPLES / "folds.phh", "phh", None,
                                "refused: hand 9: event 1, action 1: WrongSeat")
        self.assertIn("The hand was not found in the file.", found.facts)
        self.assertIn("no hands\nThe file is empty", str(explain.explain(b"", "phh")))


class Sentences(Case):
    """What is said is true, and names what is meant."""

    def test_values(self):
        """Numbers that are out of range, values of another type, and words of actions."""
        more = ("min_bet = 2\n", "min_bet = 2\nyear = 2024\nmonth = 13\nday = 5\n")
        for change, wanted in (
                (more, "month is 13: above 12, the most that it may be."),
                (("[100, 100, 100]", "[100, -100, 100]"),
                 "starting_stacks 2 is -100: below 1, the least that it may be."),
                (("[0, 0, 0]", "[0, -1, 0]"), "antes 2 is -1: below 0, the least"),
                (("min_bet = 2", "min_bet = 1000000000001"), "above 1000000000000, the most"),
                (("min_bet = 2", 'min_bet = "2"'),
                 "min_bet is a text: 2, and has to be a whole number."),
                (("min_bet = 2", "min_bet = 2\nplayers = 3"),
                 "players is a whole number: 3, and has to be a list."),
                (("AhKh", "AhXx"), "Xx is not a card. A card is one of 23456789TJQKA and one of "),
                (("AhKh", "AhK?"), "K? is a card of which only a part is known"),
                (("p3 cbr 6", "p3 raise 6"), "raise is not a word of PHH. Write: p3 cbr 6"),
                (("p1 f", "p1 fold"), "fold is not a word of PHH. Write: p1 f"),
                (("p1 f", "p4 f"), "There is no p4: the hand has 3 players."),
                (("p1 f", "p1 sm -"), "Write p1 sm: it says that p1 mucks."),
                (("p3 cbr 6", "p3 cbr"), "The amount is missing after cbr"),
                (("100, 100, 100", "100.50, 100, 100"),
                 "starting_stacks 1 is 100.50, and amounts are whole chips.")):
            with self.subTest(wanted=wanted):
                data = self.words("folds.phh", change)
                with self.assertRaises(handref.HandrefError) as refused:
                    handref.check(data, "phh")
                self.assertEqual(refused.exception.status, 3)
                self.assertIn(wanted, " ".join(explain.explain(data, "phh").facts))

    def test_stated(self):
        """What is stated of which player, with the numbers of the line."""
        for name, notation, game, change, wanted in (
                ("all_in.phh", "phh", None, ("572100, 1997500", "572101, 1997500"),
                 "Finishing_stacks says that p1 ends with 572101 chips, and the replay comes to "
                 "572100."),
                ("raise_adds.ohh", "ohh", None, ('"win_amount":200', '"win_amount":199'),
                 "The wins of p2 in pots come to 199 chips, and those of the replay to 200."),
                ("raise_adds.ohh", "ohh", None,
                 ('"amount":200,"number"', '"amount":201,"number"'),
                 "The amounts of pots, with their rakes, come to 201 chips"),
                ("match.value.acpc", "acpc", MATCH, ("", ""),
                 "The log says that p2 has won 99 chips")):
            found = explain.explain(self.words(name, change), notation, game)
            self.assertIn(wanted, found.meaning)
            self.assertNotRegex(str(found), "WHICH|pN")

    def test_text(self):
        """How to divide two objects, with the name of the file; and what is nested too deep."""
        hand = self.words("raise_adds.ohh").strip()
        two = self.folder / "two hands.ohh"
        two.write_bytes(hand + b"\n" + hand + b"\n")
        found = explain.explain(two, "ohh")
        self.assertIn(f"jq -c . '{two}' | sed G > NEW", " ".join(found.facts))
        done = subprocess.run(["bash", "-c", f"jq -c . '{two}' | sed G"], capture_output=True) \
            if shutil.which("jq") else None
        self.assertEqual(len(handref.check(done.stdout, "ohh")) if done else 2, 2)
        for text in ("_x = " + "[" * 81 + "]" * 81, "_x" + ".a" * 80 + " = 1",
                     "_x = " + "{a=" * 81 + "1" + "}" * 81, "[_x" + ".a" * 80 + "]"):
            data = self.words("folds.phh") + text.encode()
            found = explain.explain(data, "phh")
            self.assertEqual(found.line, "bad input: Text")
            self.assertIn("more than 80", " ".join(found.facts))
            self.assertEqual(found.spot.line, data.count(b"\n") + 1)
            less = data.replace(b"[" * 81, b"[" * 80).replace(b"]" * 81, b"]" * 80).replace(
                b".a" * 80, b".a" * 79).replace(b"{a=" * 81, b"{a=" * 80).replace(
                b"}" * 81, b"}" * 80)
            self.assertEqual(len(handref.check(less, "phh")), 1)

    def test_line_ends(self):
        """A line end inside a text of several lines of TOML is a part of the note."""
        data = self.words("folds.phh") + b'venue = """one\ntwo"""\n'
        notes = [toml.read(handref.convert(each, "phh", "phh").decode())["venue"]
                 for each in (data, data.replace(b"\n", b"\r\n"))]
        self.assertEqual(notes, ["one\ntwo", "one\r\ntwo"])

    def test_sites(self):
        """What `handref import` reads is named as that."""
        for begin, site in sites.SITES.items():
            front = begin.strip() + b" - " if b"Winamax" in begin else begin.strip() + b" #12"
            found = site_texts.site_of(front.replace(b"PokerStars #", b"PokerStars Hand #"))
            self.assertEqual(found, (site.name, True))
        self.assertIsNone(site_texts.site_of(self.words("folds.phh")))
        found = explain.explain(b"PokerStars Hand #247839012345:  Hold'em No Limit\n", "phh")
        self.assertIn("This is the text of a hand history of PokerStars, which handref import "
                      "reads.", found.facts)

    def test_import(self):
        """What `handref import` mends is said with its rule, and it does."""
        ohh = json.loads(self.words("raise_adds.ohh"))
        null, empty, late = (copy.deepcopy(ohh) for _ in range(3))
        null["ohh"]["table_name"] = None
        empty["ohh"]["dealer_seat"] = 9
        late["ohh"]["players"].append({"id": 77, "seat": 9, "name": "Zoe", "starting_stack": 500})
        half = b"STATE:0:r300f:9s8h|KdTc:-100.5|100.5:A|B\n"
        for data, notation, rule in (
                (self.words("folds.phh", ("100, 100, 100", "100.50, 100, 100")), "phh", "unit"),
                (self.words("all_in.phh", ("p1 sm Ac2d", "p1 sm -")), "phh", "muck-dash"),
                (b"[" + json.dumps(ohh).encode() + b"]", "ohh", "documents"),
                (2 * (json.dumps(ohh).encode() + b"\n"), "ohh", "documents"),
                (b"\xef\xbb\xbf" + json.dumps(ohh).encode(), "ohh", "documents"),
                (json.dumps(null).encode(), "ohh", "nulls"),
                (json.dumps(empty).encode(), "ohh", "dead-button"),
                (json.dumps(late).encode(), "ohh", "not-dealt-in"),
                (half, "acpc", "unit"),
                (b"MATCHSTATE:0:0:r300f:9s8h|\n", "acpc", "dealer-output")):
            with self.subTest(rule=rule, data=data[:40]):
                found = explain.explain(data, notation, MATCH if notation == "acpc" else None)
                said = found.facts[-1].split("\n")
                self.assertTrue(said[0].startswith(f"handref import mends it (rule {rule}: "))
                words = f"--game {MATCH} " if notation == "acpc" else ""
                self.assertEqual(said[1], f"  handref import --out tidy {words}FILE")


class Places(Case):
    def test_toml(self):
        """Each place of a document is that of its value."""
        text = (EXAMPLES / "three_hands.phhs").read_text()
        table = toml.read(text)
        found = toml.places(text)
        self.assertGreater(len(found), 30)
        for path, place in found.items():
            value = table
            for step in path:
                value = value[step]
            if not isinstance(value, dict):
                read = toml.read("x = " + text[place.start:place.end])["x"]
                self.assertEqual(read, value, path)

    def test_json(self):
        text = (EXAMPLES / "rake.ohh").read_text()
        line = "bad input: hand 1, ohh.rounds[0].actions[2].cards[1]: WrongType"
        error = handref.error_of(3, line)
        found = places.of(text.encode(), "ohh", error)
        self.assertEqual(found.text[found.column - 1:found.column + 3], f'"{found.value}"')


if __name__ == "__main__":
    unittest.main()
